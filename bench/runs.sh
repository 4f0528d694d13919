#!/usr/bin/env bash
# Replays scripts with the built program, on one core, with the log written to a file:
#
#   turns     so many turns of one result each over 10,000 hosts, of which none is due again
#   passive   so many passive results over 1,000 hosts, each with a service, a notification and a downtime, 1,000 a turn
#   active    so many orders, each with its report, over 10,000 services
#
# Prints seconds of the processor, the least of three runs, how many times as long each took as the one of half as many, entries or orders a
# second, and peak memory an entry, both without what an empty script over the site takes. Wanted: 75,000 turns below 0.2 s more than their
# site takes; above 400,000 passive results a second and below 300 bytes an entry; above 250,000 orders a second; each doubling below 2.2 times
# as long. An argument is a built icinga_site to take.
set -eu
top=$(cd "$(dirname "$(readlink -f "${BASH_SOURCE[0]}")")/.." && pwd)
program=${1:-$("$top/bin/program")}
work=$(mktemp -d)
trap 'rm -rf "$work"' EXIT

# what is measured, of a root and a script: seconds, the least of three runs, and kilobytes
measured() {
    local TIMEFORMAT='%3U %3S'
    for _ in 1 2 3; do
        { time /usr/bin/time -f '%M' -o "$work/memory" taskset -c 0 "$program" replay "$1" "$2" >"$work/log"; } 2>"$work/time" || return
        awk -v memory="$(cat "$work/memory")" '{ print $1 + $2, memory }' "$work/time"
    done | sort -n | head -1
}

# one row: its name, its size, what is counted of the log, and the time before
row() {
    local name=$1 size=$2 sign=$3 root=$4 script=$5
    : >"$work/empty"
    read -r idle least <<<"$(measured "$root" "$work/empty")"
    read -r seconds memory <<<"$(measured "$root" "$script")"
    awk -v name="$name" -v size="$size" -v n="$(grep -c "^$sign" "$work/log")" -v s="$seconds" -v i="$idle" -v m="$((memory - least))" -v b="${before:-}" -v sign="$sign" 'BEGIN {
        printf "%s %d: %.3f s, %.3f without the site, %d lines of %s, %.0f a second, %.0f bytes each", name, size, s, s - i, n, sign, n / (s - i), m * 1024 / n
        if (b != "") printf ", %.2f times as long", (s - i) / b
        print ""
    }'
    before=$(awk -v s="$seconds" -v i="$idle" 'BEGIN { print s - i }')
}

awk 'BEGIN {
    print "object CheckCommand \"c\" { command = [ \"/bin/true\" ] }"
    print "for (i in range(10000)) { object Host \"h\" + i { check_command = \"c\"; enable_active_checks = false; check_interval = 1d } }"
}' >"$work/hosts"

awk 'BEGIN {
    print "object CheckCommand \"c\" { command = [ \"/bin/true\" ] }"
    print "object NotificationCommand \"n\" { command = [ \"/bin/true\" ] }"
    print "object User \"u\" { }"
    print "for (i in range(1000)) { object Host \"h\" + i { check_command = \"c\"; enable_active_checks = false } }"
    print "apply Service \"s\" { check_command = \"c\"; enable_active_checks = false; assign where true }"
    print "apply Notification \"m\" to Service { command = \"n\"; users = [ \"u\" ]; assign where true }"
}' >"$work/services"

awk 'BEGIN {
    print "const MaxConcurrentChecks = 20000"
    print "object CheckCommand \"c\" { command = [ \"/bin/true\" ] }"
    print "object Host \"h\" { check_command = \"c\"; enable_active_checks = false }"
    print "for (i in range(10000)) { object Service \"s\" + i { host_name = \"h\"; check_command = \"c\"; check_interval = 10 } }"
}' >"$work/active"

before=
for turns in 18750 37500 75000; do
    awk -v turns="$turns" 'BEGIN {
        for (n = 0; n < turns; n++) printf "turn %d\nline \"[1] PROCESS_HOST_CHECK_RESULT;h%d;0;up\"\n", 1000 + n, n % 10000
    }' >"$work/script"
    row turns "$turns" entry "$work/hosts" "$work/script"
done

before=
for results in 75000 150000 300000 600000; do
    awk -v results="$results" 'BEGIN {
        print "turn 1000"
        for (h = 0; h < 1000; h++) printf "line \"[1] SCHEDULE_SVC_DOWNTIME;h%d;s;1000;2000;1;0;0;me;planned\"\n", h
        for (n = 0; n < results; n++) {
            if (n % 1000 == 0) printf "turn %d\n", 1001 + n / 1000
            printf "line \"[1] PROCESS_SERVICE_CHECK_RESULT;h%d;s;%d;PING\"\n", n % 1000, n % 7 == 0 ? 2 : 0
        }
    }' >"$work/script"
    row passive "$results" entry "$work/services" "$work/script"
done

# every service is due every ten seconds; the reports of a turn's orders come in the next turn
before=
for orders in 250000 500000 1000000; do
    awk -v orders="$orders" 'BEGIN {
        turns = orders / 10000
        for (t = 0; t < turns; t++) {
            printf "turn %d\n", 1000 + 20 * t
            printf "turn %d\n", 1001 + 20 * t
            for (n = 1; n <= 10000; n++) printf "report %d 0 \"ok\"\n", t * 10000 + n
        }
    }' >"$work/script"
    row active "$orders" order "$work/active" "$work/script"
done
