#!/usr/bin/env bash
# Audits long logs with the built program, on one core:
#
#   passive   500,000 and 1,000,000 passive results over 1,000 hosts with a service each, 2,000 a turn, in both versions of the log. With the checks
#             that follow soft problems that is half as many entries again
#   reports   250,000 and 500,000 orders over 2,000 services, each with its report, which go round, by 1 and by 4 workers
#
# Prints for each how many entries the log has, the seconds of the processor, the least of three runs, without what the audit of an empty log over
# the site takes, the bytes of memory an entry without what that takes, and how often as long it took as for half of them. Wanted: 1,000,000 entries
# below 6 s, below 500 bytes an entry, and below 2.3 times for twice as many. An argument is a built icinga_site to take.
set -eu
top=$(cd "$(dirname "$(readlink -f "${BASH_SOURCE[0]}")")/.." && pwd)
program=${1:-$("$top/bin/program")}
work=$(mktemp -d)
trap 'rm -rf "$work"' EXIT

# audited ROOT LOG WORD..: seconds and kilobytes, the least of three
audited() {
    for _ in 1 2 3; do
        /usr/bin/time -f '%U %S %M' -o "$work/time" taskset -c 0 "$program" audit "$@" >"$work/verdict"
        [ "$(cat "$work/verdict")" = legal ] || { echo "not legal: $*" >&2; exit 1; }
        awk '{ print $1 + $2, $3 }' "$work/time"
    done | sort -n | head -1
}

# row NAME ROOT SCRIPT-MAKER LOG-VERSION WORKERS COUNT..
row() {
    local name=$1 root=$2 make=$3 version=$4 workers=$5 half="" count seconds memory idle base entries
    shift 5
    : >"$work/none"
    "$program" replay "$root" "$work/none" --log "$version" >"$work/log"
    read -r idle base <<<"$(audited "$root" "$work/log")"
    for count in "$@"; do
        "$make" "$count" >"$work/script"
        "$program" replay "$root" "$work/script" --log "$version" --workers "$workers" >"$work/log"
        entries=$(grep -c '^entry ' "$work/log")
        read -r seconds memory <<<"$(audited "$root" "$work/log" --workers "$workers")"
        awk -v name="$name" -v n="$entries" -v s="$seconds" -v i="$idle" -v m="$memory" -v b="$base" -v half="$half" 'BEGIN {
            printf "%s, %d entries: %.2f s, %.2f for a million, %.0f bytes an entry", name, n, s - i, (s - i) / n * 1000000, (m - b) * 1024 / n
            if (half != "") printf ", %.2f times half of them", (s - i) / half
            print ""
        }'
        half=$(awk -v s="$seconds" -v i="$idle" 'BEGIN { print s - i }')
    done
}

# passive COUNT: a result of each host and of each service in each turn
passive() {
    awk -v turns="$(($1 / 2000))" 'BEGIN {
        for (t = 0; t < turns; t++) {
            printf "turn %d\n", 1764000000 + 60 * t
            for (h = 0; h < 1000; h++) {
                printf "line \"[1] PROCESS_HOST_CHECK_RESULT;h%d;%d;PING OK - rta 0.%d ms\"\n", h, (int(t / 7) + h) % 2, t % 97
                printf "line \"[1] PROCESS_SERVICE_CHECK_RESULT;h%d;s;%d;PING OK - rta 0.%d ms\"\n", h, (int(t / 9) + h) % 3, t % 97
            }
        }
    }'
}

# reports COUNT: orders of all services, and their reports a second later
reports() {
    awk -v rounds="$(($1 / 2000))" 'BEGIN {
        for (t = 0; t < rounds; t++) {
            printf "turn %d\nturn %d\n", 1000 + 20 * t, 1001 + 20 * t
            for (n = 1; n <= 2000; n++) printf "report %d 0 \"ok\"\n", t * 2000 + n
        }
    }'
}

cat >"$work/results" <<'CONF'
object CheckCommand "c" { command = [ "true" ] }
for (i in range(1000)) { object Host "h" + i { check_command = "c"; enable_active_checks = false } }
apply Service "s" { check_command = "c"; enable_active_checks = false; max_check_attempts = 2; assign where true }
CONF
cat >"$work/active" <<'CONF'
const MaxConcurrentChecks = 4000
object CheckCommand "c" { command = [ "true" ] }
object Host "h" { check_command = "c"; enable_active_checks = false }
for (i in range(2000)) { object Service "s" + i { host_name = "h"; check_command = "c"; check_interval = 10 } }
CONF
row "passive" "$work/results" passive 1 1 500000 1000000
row "passive, version 2" "$work/results" passive 2 1 500000 1000000
row "reports" "$work/active" reports 1 1 250000 500000
row "reports, 4 workers" "$work/active" reports 1 4 250000 500000
