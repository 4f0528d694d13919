#!/usr/bin/env bash
# Times `union`, `intersection` and the difference of two arrays of so many numbers, as rows of inner_cases; the time of a row that makes the
# arrays alone is taken off. An argument is a built inner_cases to take in place of a new one. Wanted: at 100,000 each below 0.1 s, and less than 2.3 times as long for twice as many.
set -eu
top=$(cd "$(dirname "${BASH_SOURCE[0]}")/.." && pwd)
work=$(mktemp -d)
trap 'rm -rf "$work"' EXIT

program=${1:-$top/crates/inner_cases/out/inner_cases}
[ $# = 1 ] || (cd "$top/crates/inner_cases" && rt run >"$work/log" 2>&1 </dev/null) || true
[ -x "$program" ] || { cat "$work/log" >&2; exit 1; }

# run COUNT EXPRESSION: the milliseconds of twenty rows with two arrays `a` and `b` of so many numbers, the least of five runs
run() {
    for _ in 1 2 3 4 5 6 7 8 9 10 11 12 13 14 15 16 17 18 19 20; do
        printf 'item object User "u" { var a = range(%s); var b = range(%s); vars.n = %s }\n' "$1" "$1" "$2"
    done >"$work/rows"
    for _ in 1 2 3 4 5; do
        /usr/bin/time -f '%U %S' -o "$work/time" taskset -c 0 "$program" <"$work/rows" >"$work/told"
        [ "$(grep -c '"n":' "$work/told")" = 20 ]
        awk '{ print 1000 * ($1 + $2) }' "$work/time"
    done | sort -n | head -1
}

for count in 25000 50000 100000; do
    made=$(run "$count" 'a.len() + b.len()')
    for expression in 'union(a, b).len()' 'intersection(a, b).len()' '(a - b).len()'; do
        awk -v n="$count" -v e="$expression" -v s="$(run "$count" "$expression")" -v m="$made" \
            'BEGIN { printf "%s of %d numbers: %.1f ms\n", e, n, (s - m) / 20 }'
    done
done
