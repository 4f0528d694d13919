#!/usr/bin/env bash
# Writes and reads state files of 250,000 to 1,000,000 entries with the built program, on one core: `keep` over a script of so many results
# of 1,000 hosts, a turn a minute, and `resume` after what it wrote, over a script of one turn. The time of `keep` has in it that the script is
# read and run. Prints for each the seconds of the processor, the least of three runs, and the greatest memory, in megabytes and by the size
# of the state file. Then the same of `resume` for a state file in whose objects the members stand in another order, and what a daemon takes
# after its first turn, with these entries before it and with none.
#
# Wanted: at 1,000,000 entries below 3 s each, twice as long for twice as many, and below 3 times the state file's size; and a daemon that takes
# as much as one without entries. An argument is a built icinga_site to take.
set -eu
top=$(cd "$(dirname "$(readlink -f "${BASH_SOURCE[0]}")")/.." && pwd)
program=${1:-$("$top/bin/program")}
work=$(mktemp -d)
trap 'rm -rf "$work"' EXIT

cat >"$work/site" <<'CONF'
object CheckCommand "c" { command = [ "true" ] }
for (i in range(1000)) { object Host "h" + i { check_command = "c"; enable_active_checks = false } }
CONF
printf 'turn 1799999999\n' >"$work/next"

# script TURNS: a result of each host in each turn
script() {
    awk -v turns="$1" 'BEGIN {
        for (t = 0; t < turns; t++) {
            printf "turn %d\n", 1764000000 + 60 * t
            for (h = 0; h < 1000; h++) printf "line \"[1] PROCESS_HOST_CHECK_RESULT;h%d;%d;PING OK - rta 0.%d ms\"\n", h, (int(t / 7) + h) % 2, t % 97
        }
    }'
}

# measure OUTPUT WORD..: seconds, megabytes, and times the size of the state file; the least of three
measure() {
    local output=$1
    shift
    for _ in 1 2 3; do
        /usr/bin/time -f '%U %S %M' -o "$work/time" taskset -c 0 "$program" "$@" >"$output"
        awk '{ print $1 + $2, $3 }' "$work/time"
    done | sort -n | head -1
}

# show NAME COUNT SECONDS KILOBYTES
show() {
    awk -v name="$1" -v count="$2" -v seconds="$3" -v memory="$4" -v size="$(stat -c %s "$work/state")" 'BEGIN {
        printf "%s, %d entries: %.2f s, %d MB, %.2f times the state file\n", name, count, seconds, memory / 1024, memory * 1024 / size
    }'
}

# kept STATE..: the kilobytes that a daemon takes after its first turn
kept() {
    : >"$work/log"
    "$program" daemon "$work/site" "$@" --log 2 <>"$work/world" >"$work/log" 2>/dev/null &
    until grep -q '^turn 1 ' "$work/log"; do sleep 0.1; done
    awk '$1 == "VmRSS:" { print $2 }' /proc/$!/status
    kill $!
    wait $! || true
}
mkfifo "$work/world"

for turns in 250 500 1000; do
    script "$turns" >"$work/script"
    read -r seconds memory <<<"$(measure "$work/state" keep "$work/site" "$work/script")"
    show keep "$((turns * 1000))" "$seconds" "$memory"
    read -r seconds memory <<<"$(measure "$work/log" resume "$work/site" "$work/state" "$work/next")"
    show resume "$((turns * 1000))" "$seconds" "$memory"
done
printf 'a daemon takes %d kB after 1,000,000 entries, and %d kB without\n' "$(kept "$work/state")" "$(kept)"
sed -i 's/^{\("checkables":.*\),"version":1}$/{"version":1,\1}/' "$work/state"
read -r seconds memory <<<"$(measure "$work/log" resume "$work/site" "$work/state" "$work/next")"
show "resume, version first" 1000000 "$seconds" "$memory"
