#!/usr/bin/env bash
# Asks queries over 10,000 checkables (5,000 hosts, each with a service) with the built program, on one core: the time that `query` takes
# beside `replay` of the same script to /dev/null. The script has a result of each of them and then a turn without a line.
#
#   all      all services with all columns: 5,000 lines
#   names    all hosts: 5,000 lines of two columns
#   few      services that meet four filters: 5 lines
#   none     hosts that meet a filter on the name: none
#
# Prints milliseconds of the processor, the least of five runs. Wanted: below 10 ms
# beyond the run. An argument is a built icinga_site to take.
set -eu
top=$(cd "$(dirname "$(readlink -f "${BASH_SOURCE[0]}")")/.." && pwd)
program=${1:-$("$top/bin/program")}
work=$(mktemp -d)
trap 'rm -rf "$work"' EXIT

# timed WORD..: milliseconds of the processor, the least of five runs; the output goes to /dev/null
timed() {
    local TIMEFORMAT='%3U %3S'
    for _ in 1 2 3 4 5; do
        { time taskset -c 0 "$program" "$@" >/dev/null; } 2>"$work/time" || return
        awk '{ print ($1 + $2) * 1000 }' "$work/time"
    done | sort -n | head -1
}

cat >"$work/site" <<'CONF'
object CheckCommand "c" { command = [ "/bin/true" ] }
for (i in range(5000)) { object Host "h" + i { check_command = "c"; enable_active_checks = false } }
apply Service "s" { check_command = "c"; enable_active_checks = false; assign where true }
CONF
awk 'BEGIN {
    print "turn 1764000000"
    for (n = 0; n < 5000; n++) {
        printf "line \"[1] PROCESS_HOST_CHECK_RESULT;h%d;%d;PING\"\n", n, n % 10 == 0
        printf "line \"[1] PROCESS_SERVICE_CHECK_RESULT;h%d;s;%d;DISK\"\n", n, n % 4
    }
    print "turn 1764000001"
}' >"$work/script"
run=$(timed replay "$work/site" "$work/script")
echo "replay of the script: $run ms"

# asked NAME LINE..: a query of these lines
asked() {
    local name=$1
    shift
    printf '%s\n' "$@" >"$work/query"
    lines=$("$program" query "$work/site" "$work/script" "$work/query" | wc -l)
    ms=$(timed query "$work/site" "$work/script" "$work/query")
    awk -v name="$name" -v lines="$lines" -v ms="$ms" -v run="$run" 'BEGIN { printf "query, %s: %d lines, %d ms, %d beyond the run\n", name, lines, ms, ms - run }'
}

asked all "GET services" "Columns: name state hard has_result acknowledged flapping attempt change count downtime"
asked names "GET hosts"
asked few "GET services" "Columns: name" "Filter: state >= 2" "Filter: hard = 0" "Filter: name >= h4" "Filter: count = 1" "Limit: 5"
asked none "GET hosts" "Filter: name = h5000"
