#!/usr/bin/env bash
# Replays 250,000 to 1,000,000 results of one service with the built program, on one core, ten seconds apart: without notifications; with three
# that were told already; and with three of three users each that are told at every result. The time has in it that the script is read and the
# log is written. Prints seconds of the processor, the least of three runs, and the memory of an entry. Wanted: less than 2.3 times as long
# for twice as many. An argument is a built icinga_site to take.
set -eu
top=$(cd "$(dirname "$(readlink -f "${BASH_SOURCE[0]}")")/.." && pwd)
program=${1:-$top/bin/icinga_site}
work=$(mktemp -d)
trap 'rm -rf "$work"' EXIT

# site ATTRIBUTE NOTIFICATIONS: a service that is HARD at once, with so many notifications of three users each
site() {
    awk -v attribute="$1" -v count="$2" 'BEGIN {
        print "object CheckCommand \"c\" { command = \"x\" }; object NotificationCommand \"n\" { command = \"x\" }"
        print "object Host \"h\" { check_command = \"c\"; enable_active_checks = false }"
        print "object Service \"s\" { host_name = \"h\"; check_command = \"c\"; enable_active_checks = false; max_check_attempts = 1; " attribute " }"
        print "for (n in [ \"u\", \"v\", \"w\" ]) { object User n { } }"
        print "for (i in range(" count ")) { object Notification \"m\" + i { host_name = \"h\"; service_name = \"s\"; command = \"n\"; users = [ \"u\", \"v\", \"w\" ]; interval = 0 } }"
    }'
}

# script STATUS COUNT
script() {
    awk -v status="$1" -v count="$2" 'BEGIN {
        for (i = 1; i <= count; i++) printf "turn %d\nline \"[1] PROCESS_SERVICE_CHECK_RESULT;h;s;%d;x\"\n", 10 * i, status
    }'
}

# run STATUS COUNT: the seconds and the kilobytes of a replay, the least of three
run() {
    script "$1" "$2" >"$work/script"
    for _ in 1 2 3; do
        /usr/bin/time -f '%U %S %M' -o "$work/time" taskset -c 0 "$program" replay "$work/site" "$work/script" >"$work/log"
        [ "$(grep -c '^entry' "$work/log")" = "$2" ]
        awk '{ print $1 + $2, $3 }' "$work/time"
    done | sort -n | head -1
}

# measure NAME ATTRIBUTE NOTIFICATIONS STATUS
measure() {
    site "$2" "$3" >"$work/site"
    read -r _ none < <(run "$4" 1)
    for count in 250000 500000 1000000; do
        read -r seconds kilobytes < <(run "$4" "$count")
        awk -v name="$1" -v n="$count" -v s="$seconds" -v k="$((kilobytes - none))" \
            'BEGIN { printf "%s, %d entries: %.2f s, %.0f ns and %.0f bytes an entry\n", name, n, s, 1e9 * s / n, 1024 * k / n }'
    done
}

measure 'no notification' '' 0 0
measure 'told already' '' 3 2
measure 'told each time' 'volatile = true' 3 2
