#!/usr/bin/env bash
# Times evaluations on one core, as rows of inner_cases whose loops have so many turns: additions, reads of a global and of a local,
# calls of a function of one parameter, and the condition `host.vars.os == "Linux"`. The time of an empty loop of as many turns is taken off all
# but the additions. Wanted: 1,000,000 additions below 0.3 s, a read below 50 ns, a call below 300 ns, a condition below 1 us, and less than
# 2.3 times as long for twice as many. An argument is a built inner_cases to take in place of a new one.
set -eu
top=$(cd "$(dirname "${BASH_SOURCE[0]}")/.." && pwd)
work=$(mktemp -d)
trap 'rm -rf "$work"' EXIT

program=${1:-$top/crates/inner_cases/out/inner_cases}
[ $# = 1 ] || (cd "$top/crates/inner_cases" && rt run >"$work/log" 2>&1 </dev/null) || true
[ -x "$program" ] || { cat "$work/log" >&2; exit 1; }

# run BEFORE COUNT TURN: the seconds of a body with these statements and a loop of so many turns, the least of five runs
run() {
    printf 'within 1000000000 1000000000 300 function f(v) { }⏎x = 1; object Host "h" use (host = { vars = { os = "Linux" } }) { var l = 1; %s for (i in range(%s)) { %s } }\n' \
        "$1" "$2" "$3" >"$work/rows"
    for _ in 1 2 3 4 5; do
        /usr/bin/time -f '%U %S' -o "$work/time" taskset -c 0 "$program" <"$work/rows" >"$work/told"
        grep -q ' left ' "$work/told"
        awk '{ print $1 + $2 }' "$work/time"
    done | sort -n | head -1
}

# measure NAME PARTS TURN: what each of the parts of a turn takes beside an empty loop
measure() {
    for count in 250000 500000 1000000; do
        empty=$(run '' "$count" '')
        seconds=$(run '' "$count" "$3")
        awk -v name="$1" -v n="$count" -v parts="$2" -v s="$seconds" -v e="$empty" \
            'BEGIN { printf "%s, %d turns: %.2f s, %.0f ns each\n", name, n, s, 1e9 * (s - e) / n / parts }'
    done
}

for count in 250000 500000 1000000; do
    awk -v n="$count" -v s="$(run 'var a = 0;' "$count" 'a += 1')" 'BEGIN { printf "%d additions: %.2f s\n", n, s }'
done
measure 'ten reads of a global' 10 'x; x; x; x; x; x; x; x; x; x'
measure 'ten reads of a local' 10 'l; l; l; l; l; l; l; l; l; l'
measure 'a call' 1 'f(i)'
measure 'a condition' 1 'host.vars.os == "Linux"'
