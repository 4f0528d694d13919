#!/usr/bin/env bash
# Commits sites with the built program: `check` over so many hosts, each site twice as large as the one before, and `objects` over the same.
# A plain host has two services by apply rules and a notification for each of them. A rich one has its attributes from templates and by a
# function, stands in a group, depends on a host in a tree, and has services whose rules ask a function. Prints objects, seconds of the
# processor, objects a second, and peak memory an object beyond the text. Wanted at 10,000 hosts: 100,000 objects a second of plain sites and
# 60,000 of rich ones, less than 2.3 times as long for twice as many, below 1 KiB an object, and `objects` less than half as much again.
#
# Then commits 10,000 hosts of each kind with 1, 2 and 4 workers, on as many cores as there are. Prints seconds by the clock, the least of three
# runs, those of the processor, and peak memory. Wanted, on four cores: 4 workers take at most half of one's time for rich sites and 0.6 of it for
# plain ones, and at most half as much memory again.
# An argument is a built icinga_site to take.
set -eu
top=$(cd "$(dirname "$(readlink -f "${BASH_SOURCE[0]}")")/.." && pwd)
program=${1:-$("$top/bin/program")}
work=$(mktemp -d)
trap 'rm -rf "$work"' EXIT

# shellcheck source=bench/hosts.sh
. "$top/bench/hosts.sh"

# run WORD ROOT: the seconds and the kilobytes of peak memory
run() {
    /usr/bin/time -f '%U %S %M' -o "$work/time" taskset -c 0 "$program" "$1" "$2" >"$work/out"
    awk '{ print $1 + $2, $3 }' "$work/time"
}

for kind in plain rich; do
    for count in 2500 5000 10000 20000; do
        site=$work/$kind-$count
        "${kind}_site" "$site" "$count"
        bytes=$(cat "$site"/*.conf "$site"/conf.d/* | wc -c)
        read -r check memory < <(run check "$site/icinga2.conf")
        objects=$(awk '/^ok/ { print $2 }' "$work/out")
        read -r listing _ < <(run objects "$site/icinga2.conf")
        [ "$(wc -l <"$work/out")" = "$objects" ]
        awk -v k="$kind" -v h="$count" -v n="$objects" -v s="$check" -v l="$listing" -v m="$memory" -v b="$bytes" 'BEGIN {
            printf "%s, %d hosts, %d objects: %.2f s, %.0f a second, %.0f bytes an object beyond %.1f MB of text; listed in %.2f s\n", k, h, n, s, n / s, (m * 1024 - b) / n, b / 1e6, l
        }'
        rm -rf "$site"
    done
done

# clocked ROOT WORKERS: the seconds by the clock, those of the processor and the kilobytes of peak memory of the fastest of three runs
clocked() {
    for _ in 1 2 3; do
        /usr/bin/time -f '%e %U %S %M' -o "$work/time" "$program" check "$1" --workers "$2" --quiet >"$work/out"
        awk '{ print $1, $2 + $3, $4 }' "$work/time"
    done | sort -n | head -1
}

for kind in plain rich; do
    site=$work/$kind
    "${kind}_site" "$site" 10000
    one=""
    for workers in 1 2 4; do
        read -r clock seconds memory < <(clocked "$site/icinga2.conf" "$workers")
        one=${one:-$clock}
        awk -v k="$kind" -v w="$workers" -v c="$clock" -v s="$seconds" -v m="$memory" -v one="$one" 'BEGIN {
            printf "%s, 10,000 hosts, %d workers: %.2f s by the clock, %.2f times one, %.2f s of the processor, %.0f MB\n", k, w, c, c / one, s, m / 1000
        }'
    done
    rm -rf "$site"
done
