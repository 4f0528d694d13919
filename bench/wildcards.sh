#!/usr/bin/env bash
# Checks what many wildcards over one folder of 9,800 files cost: so many lines `include "zz*";`, of which none names a file,
# and a file of almost 4 MiB of them. 400 lines are to take below 0.1 s, since the folder is listed once and the name looked up
# once; and time is to grow by less than 2.3 for each doubling.
set -eu
top=$(cd "$(dirname "$(readlink -f "${BASH_SOURCE[0]}")")/.." && pwd)
work=$(mktemp -d)
trap 'rm -rf "$work"' EXIT
program=$("$top/bin/program")
(cd "$work" && seq -f 'file%.0f.conf' 9800 | xargs touch)

# the seconds that lines of this form take, where `@` stands for the line's number
measure() {
    local lines=$1 form=$2
    awk -v n="$lines" -v form="$form" 'BEGIN { for (i = 0; i < n; i++) { line = form; gsub("@", i, line); print line } }' >"$work/root"
    (cd "$work" && /usr/bin/time -f '%e %M' -o "$work.time" taskset -c 0 "$program" objects root >/dev/null)
    awk -v n="$lines" -v form="$form" '{ printf "%d lines %s %.2f s, %.0f MB\n", n, form, $1, $2 / 1024 }' "$work.time"
    rm -f "$work.time"
}

for lines in 400 58000 116000 232000; do
    measure "$lines" 'include "zz*";'
done
for lines in 400 800 1600; do
    measure "$lines" 'include "zz@*";'
done
