#!/usr/bin/env bash
# Runs generated sites with the built program, on one core: `gen` of so many hosts, each time twice as many. Prints objects and entries, seconds
# of the processor, how many times as long each took as the one of half as many, and peak memory a host. Ends with 1 if the counts of 1,000
# hosts aren't those that were worked out apart from the program. An argument is a built icinga_site to take.
set -eu
top=$(cd "$(dirname "$(readlink -f "${BASH_SOURCE[0]}")")/.." && pwd)
program=${1:-$("$top/bin/program")}
work=$(mktemp -d)
trap 'rm -rf "$work"' EXIT

before=
for hosts in 1250 2500 5000 10000; do
    /usr/bin/time -f '%U %S %M' -o "$work/time" taskset -c 0 "$program" gen "$hosts" >"$work/counts"
    read -r user system memory <"$work/time"
    awk -v hosts="$hosts" -v user="$user" -v kernel="$system" -v memory="$memory" -v before="$before" '
        { of[$1] = $2 }
        END {
            printf "%d hosts: %d objects, %d entries, %.2f s, %.0f bytes a host", hosts, of["objects"], of["entries"], user + kernel, memory * 1024 / hosts
            if (before != "") printf ", %.2f times as long", (user + kernel) / before
            print ""
        }' "$work/counts"
    before=$(awk -v user="$user" -v kernel="$system" 'BEGIN { print user + kernel }')
done

"$program" gen 1000 >"$work/counts"
diff - "$work/counts" <<'COUNTS'
objects 4002
entries 6750
sent 1750
suppressed 0
orders 512
COUNTS
