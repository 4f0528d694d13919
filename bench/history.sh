#!/usr/bin/env bash
# What long histories cost the built program: memory of a daemon, and time of results beside downtimes that are still to come.
#
#   memory   100,000 to 10,000,000 passive results over 1,000 services, which `daemon` reads from standard input, 4 MiB a turn
#   time     replays of 20,000 to 80,000 turns, each with a result of one host and a downtime of it that begins much later
#
# Prints kilobytes at the peak; and seconds of the processor, the least of three runs, with how many times as long twice as many took. Wanted:
# 10,000,000 results in less than 1.2 times the memory of 100,000, and 80,000 turns below 1.5 s. It takes some four minutes, since turns are a
# second apart. An argument is a built icinga_site to take.
set -eu
top=$(cd "$(dirname "$(readlink -f "${BASH_SOURCE[0]}")")/.." && pwd)
program=${1:-$("$top/bin/program")}
work=$(mktemp -d)
trap 'rm -rf "$work"' EXIT

cat >"$work/site" <<'CONF'
object CheckCommand "c" { command = [ "true" ] }
object Host "h" { check_command = "c"; enable_active_checks = false }
for (i in range(1000)) { object Service "s" + i { host_name = "h"; check_command = "c"; enable_active_checks = false } }
CONF

# results COUNT: as many passive results, each of the next service, whose status changes every hundredth time
results() {
    awk -v count="$1" 'BEGIN {
        for (i = 0; i < count; i++) printf "[1] PROCESS_SERVICE_CHECK_RESULT;h;s%d;%d;x\n", i % 1000, int(i / 100000) % 2
    }'
}

# turns COUNT: a script of as many turns
turns() {
    awk -v count="$1" 'BEGIN {
        for (i = 1; i <= count; i++) {
            printf "turn %d\nline \"[1] PROCESS_HOST_CHECK_RESULT;h;%d;x\"\n", i, i % 2
            printf "line \"[1] SCHEDULE_HOST_DOWNTIME;h;%d;%d;1;0;0;a;b\"\n", i + 10000000, i + 10003600
        }
    }'
}

# seconds COUNT: those of the processor that a replay of as many turns takes, the least of three runs
seconds() {
    turns "$1" >"$work/script"
    for _ in 1 2 3; do
        /usr/bin/time -f '%U %S' -o "$work/time" taskset -c 0 "$program" replay "$work/site" "$work/script" >"$work/log"
        [ "$(grep -c '^entry "h"' "$work/log")" -ge $((2 * $1)) ]
        awk '{ print $1 + $2 }' "$work/time"
    done | sort -n | head -n 1
}

for count in 100000 1000000 10000000; do
    entries=$(results "$count" | /usr/bin/time -f '%M' -o "$work/memory" "$program" daemon "$work/site" 2>"$work/errors" | grep -c ': passive ')
    [ "$entries" = "$count" ]
    printf 'memory, %d results: %d KB\n' "$count" "$(cat "$work/memory")"
done

before=
for count in 20000 40000 80000; do
    now=$(seconds "$count")
    printf 'time, %d turns of a result and a downtime: %s s' "$count" "$now"
    [ -z "$before" ] || awk -v now="$now" -v before="$before" 'BEGIN { if (before > 0) printf ", %.2f times as long", now / before }'
    echo
    before=$now
done
