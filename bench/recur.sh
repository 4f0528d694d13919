#!/usr/bin/env bash
# Replays scripts over 10,000 hosts, each with a ScheduledDowntime, with the built program, on one core, with the log written to a file:
#
#   far      75,000 turns of one result each, a second apart, with and without --recur; the objects' segments are in another year
#   one      the same with a segment of each object at the same time of each day
#   spread   the same with segments that begin at each minute of the day
#   waits    the same with objects that their own hosts' downtimes trigger, of which one waits in its segment from the first turn to the last
#   silence  two turns that are a day, a year and fifty years apart, with --recur and without a result; each object has a segment on each day
#
# Prints seconds of the processor, the least of three runs, without what an empty script over the site takes. Wanted: turns with --recur below 1.3
# times the time without, where no downtime is given; and a year and fifty years of silence below 1.3 times what a day takes. A downtime that is given
# is an entry, so rows with some also say how long the same downtimes take from a script, whose log has to be the same. An argument is a built icinga_site to take.
set -eu
top=$(cd "$(dirname "$(readlink -f "${BASH_SOURCE[0]}")")/.." && pwd)
program=${1:-$("$top/bin/program")}
work=$(mktemp -d)
trap 'rm -rf "$work"' EXIT
: >"$work/empty"

# timed NAME SCRIPT [OPTION]: adds the seconds of the processor of one run to what NAME took
timed() {
    local TIMEFORMAT='%3U %3S' name=$1
    shift
    { time taskset -c 0 "$program" replay "$work/site" "$@" >"$work/log"; } 2>"$work/time" || return
    awk '{ print $1 + $2 }' "$work/time" >>"$work/seconds.$name"
}

# the least of what NAME took
least() {
    sort -n "$work/seconds.$1" | head -1
}

# site RANGES: of each object by its number i
site() {
    cat >"$work/site" <<CONF
object CheckCommand "c" { command = [ "/bin/true" ] }
const days = [ "monday", "tuesday", "wednesday", "thursday", "friday", "saturday", "sunday" ]
function two(n) {
  if (n < 10) { return "0" + n }
  return "" + n
}
function clock(minute) { return two((minute - minute % 60) / 60) + ":" + two(minute % 60) }
for (i in range(10000)) {
  object Host "h" + i { check_command = "c"; enable_active_checks = false; check_interval = 1d }
  object ScheduledDowntime "d" use (i) {
    host_name = "h" + i
    author = "me"
    comment = "planned"
    $1
  }
}
CONF
    "$program" check "$work/site" --quiet >"$work/log" || { cat "$work/log"; exit 1; }
}

# The lines of the downtimes in a log, as a script has them at the same turns, before those of the first script.
by_hand() {
    awk 'FNR == NR {
            if ($1 == "turn") turn = $2
            else if ($8 == "down") given[turn] = given[turn] "line \"[1] SCHEDULE_HOST_DOWNTIME;" substr($2, 2, length($2) - 2) ";" $9 ";" $10 ";1;0;0;me;planned\"\n"
            next
        }
        { print }
        /^turn/ { number++; printf "%s", given[number] }' "$1" "$2"
}

# turns NAME RANGES
turns() {
    site "$2"
    rm -f "$work"/seconds.*
    # Other work comes and goes, so those that are compared run by turns.
    for _ in 1 2 3; do
        timed idle "$work/empty"
        timed without "$work/turns"
        timed asleep "$work/empty" --recur
        timed with "$work/turns" --recur
        cp "$work/log" "$work/given"
        by_hand "$work/given" "$work/turns" >"$work/hand"
        timed hand "$work/hand"
        cmp -s "$work/log" "$work/given" || echo "$1: the script of these downtimes has another log"
    done
    awk -v name="$1" -v i="$(least idle)" -v a="$(least asleep)" -v without="$(least without)" -v with="$(least with)" -v hand="$(least hand)" \
        -v given="$(grep -c ': down ' "$work/given" || true)" 'BEGIN {
        printf "%s: %.3f s without, %.3f s with --recur, %.2f times as long, %d downtimes", name, without - i, with - a, (with - a) / (without - i), given
        if (given) printf ", %.3f s with these in the script, %.2f times as long as that", hand - i, (with - a) / (hand - i)
        print ""
    }'
}

awk 'BEGIN { for (n = 0; n < 75000; n++) printf "turn %d\nline \"[1] PROCESS_HOST_CHECK_RESULT;h%d;0;up\"\n", 1768780800 + n, n % 10000 }' >"$work/turns"
turns far 'ranges = { "2030-01-01" = "01:00-02:00" }'
turns one 'for (day in days) { ranges[day] = "20:00-21:00" }'
turns spread 'for (day in days) { ranges[day] = clock(i % 1439) + "-" + clock(i % 1439 + 1) }'
turns waits 'vars.triggered_by = "h" + i
    if (i == 5000) { ranges = { "2026-01-19" = "00:00-24:00" } } else { ranges = { "2030-01-01" = "01:00-02:00" } }'

site 'for (day in days) { ranges[day] = "01:00-02:00" }'
rm -f "$work"/seconds.*
for _ in 1 2 3; do
    timed idle "$work/empty" --recur
    for days in 1 365 18250; do
        printf 'turn 1768780800\nturn %d\n' $((1768780800 + days * 86400)) >"$work/silence"
        timed "$days" "$work/silence" --recur
    done
done
for days in 1 365 18250; do
    awk -v days="$days" -v s="$(least "$days")" -v i="$(least idle)" -v b="$(least 1)" -v given="$(grep -c ': down ' "$work/log")" 'BEGIN {
        printf "silence of %d days: %.3f s, %d downtimes, %.2f times as long as one day\n", days, s - i, given, (s - i) / (b - i)
    }'
done
