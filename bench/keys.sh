#!/usr/bin/env bash
# Sets keys one at a time with the built program: `check` over a file whose loop gives a dictionary so many keys, each of which rises, falls or
# lies anywhere; over files of so many `const` or `var` whose names do; and over a file whose loop takes so many pairs out, from the front
# or from the end. Prints seconds of the processor, the least of three runs.
# Wanted: 200,000 keys, 150,000 names and 60,000 removals below 1 s each, and less than 2.2 times as long for twice as many; falling
# ones as fast as rising ones. An argument is a built icinga_site to take.
set -eu
top=$(cd "$(dirname "$(readlink -f "${BASH_SOURCE[0]}")")/.." && pwd)
program=${1:-$("$top/bin/program")}
work=$(mktemp -d)
trap 'rm -rf "$work"' EXIT

# keys COUNT EXPR: a loop that gives a dictionary keys of this number
keys() {
    printf 'var d = {}\nfor (i in range(%s)) {\n  d["key-" + (%s)] = i\n}\n' "$1" "$2"
}

# names WORD COUNT ORDER: so many constants or variables
names() {
    awk -v word="$1" -v count="$2" -v order="$3" 'BEGIN {
        for (i = 0; i < count; i++) {
            n = order == "rising" ? i : order == "falling" ? count - 1 - i : (i * 7919) % count
            printf "%s name_%07d = %d\n", word, n, i
        }
    }'
}

# removals COUNT EXPR: a loop that takes out all the keys that another one gave
removals() {
    keys "$1" '1000000 + i'
    printf 'for (i in range(%s)) {\n  d.remove("key-" + (%s))\n}\n' "$1" "$2"
}

# run: the seconds of a check of the file
run() {
    for _ in 1 2 3; do
        /usr/bin/time -f '%U %S' -o "$work/time" taskset -c 0 "$program" check "$work/keys.conf" >"$work/told"
        grep -q '^ok' "$work/told" || { cat "$work/told" >&2; exit 1; }
        awk '{ print $1 + $2 }' "$work/time"
    done | sort -n | head -1
}

for order in rising falling mixed; do
    for count in 50000 100000 200000; do
        case $order in
        rising) number='1000000 + i' ;;
        falling) number="1000000 + $count - 1 - i" ;;
        mixed) number="1000000 + i * 7919 % $count" ;;
        esac
        keys "$count" "$number" >"$work/keys.conf"
        echo "$count $order keys of a dictionary: $(run) s"
    done
done
for word in const var; do
    for order in rising falling mixed; do
        for count in 37500 75000 150000; do
            names "$word" "$count" "$order" >"$work/keys.conf"
            echo "$count $order names by $word: $(run) s"
        done
    done
done
for place in front end; do
    for count in 15000 30000 60000; do
        number='1000000 + i'
        [ $place = front ] || number="1000000 + $count - 1 - i"
        removals "$count" "$number" >"$work/keys.conf"
        echo "$count pairs put in and taken out from the $place: $(run) s"
    done
done
