#!/usr/bin/env bash
# Replays scripts with 1, 2, 4 and 64 workers of the built program, with the log written to a file, by the clock:
#
#   passive   600,000 passive results over 1,000 hosts, each with a service and a notification, 20,000 a turn. All are worker 0's
#   reports   500,000 orders over 10,000 services, each with its report, which go round
#   turns     20,000 turns of one result each over 10,000 hosts
#
# Prints seconds, the least of three runs, without what an empty script over the site takes, and beside one worker; of turns also microseconds a
# turn more than one worker takes. Wanted, on four cores: 4 workers at most half of one's time for passive results and 2 at most 0.7; a turn at most
# 20 microseconds more with 4; 64 at most 1.3 times what 4 take. An argument is a built icinga_site to take.
set -eu
top=$(cd "$(dirname "$(readlink -f "${BASH_SOURCE[0]}")")/.." && pwd)
program=${1:-$("$top/bin/program")}
work=$(mktemp -d)
trap 'rm -rf "$work"' EXIT
: >"$work/empty"

# timed ROOT SCRIPT WORKERS: seconds by the clock, the least of three runs
timed() {
    for _ in 1 2 3; do
        /usr/bin/time -f '%e' -o "$work/time" "$program" replay "$1" "$2" --workers "$3" >"$work/log"
        cat "$work/time"
    done | sort -n | head -1
}

# row NAME ROOT SCRIPT TURNS
row() {
    local name=$1 root=$2 script=$3 turns=$4 idle one="" workers seconds
    idle=$(timed "$root" "$work/empty" 1)
    for workers in 1 2 4 64; do
        seconds=$(timed "$root" "$script" "$workers")
        awk -v name="$name" -v w="$workers" -v s="$seconds" -v i="$idle" -v one="${one:-}" -v turns="$turns" 'BEGIN {
            printf "%s, %d workers: %.2f s", name, w, s - i
            if (one != "") printf ", %.2f times one, %.1f us a turn more", (s - i) / one, (s - i - one) * 1000000 / turns
            print ""
        }'
        one=${one:-$(awk -v s="$seconds" -v i="$idle" 'BEGIN { print s - i }')}
    done
}

awk 'BEGIN {
    print "object CheckCommand \"c\" { command = [ \"/bin/true\" ] }"
    print "object NotificationCommand \"n\" { command = [ \"/bin/true\" ] }"
    print "object User \"u\" { }"
    print "for (i in range(1000)) { object Host \"h\" + i { check_command = \"c\"; enable_active_checks = false } }"
    print "apply Service \"s\" { check_command = \"c\"; enable_active_checks = false; assign where true }"
    print "apply Notification \"m\" to Service { command = \"n\"; users = [ \"u\" ]; assign where true }"
}' >"$work/services"
awk 'BEGIN {
    for (n = 0; n < 600000; n++) {
        if (n % 20000 == 0) printf "turn %d\n", 1001 + n / 20000
        printf "line \"[1] PROCESS_SERVICE_CHECK_RESULT;h%d;s;%d;PING\"\n", n % 1000, n % 7 == 0 ? 2 : 0
    }
}' >"$work/passive"
row passive "$work/services" "$work/passive" 30

awk 'BEGIN {
    print "const MaxConcurrentChecks = 20000"
    print "object CheckCommand \"c\" { command = [ \"/bin/true\" ] }"
    print "object Host \"h\" { check_command = \"c\"; enable_active_checks = false }"
    print "for (i in range(10000)) { object Service \"s\" + i { host_name = \"h\"; check_command = \"c\"; check_interval = 10 } }"
}' >"$work/active"
awk 'BEGIN {
    for (t = 0; t < 50; t++) {
        printf "turn %d\n", 1000 + 20 * t
        printf "turn %d\n", 1001 + 20 * t
        for (n = 1; n <= 10000; n++) printf "report %d 0 \"ok\"\n", t * 10000 + n
    }
}' >"$work/reports"
row reports "$work/active" "$work/reports" 100

awk 'BEGIN {
    print "object CheckCommand \"c\" { command = [ \"/bin/true\" ] }"
    print "for (i in range(10000)) { object Host \"h\" + i { check_command = \"c\"; enable_active_checks = false; check_interval = 1d } }"
}' >"$work/hosts"
awk 'BEGIN {
    for (n = 0; n < 20000; n++) printf "turn %d\nline \"[1] PROCESS_HOST_CHECK_RESULT;h%d;0;up\"\n", 1000 + n, n % 10000
}' >"$work/turns"
row turns "$work/hosts" "$work/turns" 20000
