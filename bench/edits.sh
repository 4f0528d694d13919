#!/usr/bin/env bash
# Tries the edits that stand in crates/NAME/edits/, which the gate leaves out, and tells of each whether the prover refuses it.
#
# usage: bench/edits.sh [NAME..]        (if none is named, all crates that have some)
#
# It runs the gate over a copy of these crates and all that they stand on, in which these edits are the only must-fail ones. So it takes the libraries
# that the gate kept; `rt must-fail` would prove each of them again in a copy. A crate with several edits takes a whole check of it, and then for each
# edit, and once more at the end, the time to read what stands below and to check what the edit changed; a crate with one edit takes one whole check.
# What was tried before, over the same files, isn't tried again. Writes a line for each edit, and ends with 1 if one isn't refused.
set -euo pipefail
# shellcheck source=bin/sources.sh
. "$(dirname "$(readlink -f "${BASH_SOURCE[0]}")")/../bin/sources.sh"

names=("$@")
if [ $# = 0 ]; then
    for folder in "$top"/crates/*/edits; do
        folder=${folder%/edits}
        names+=("${folder##*/}")
    done
fi
for name in "${names[@]}"; do
    [ -d "$top/crates/$name/edits" ] || { echo "bench/edits.sh: there is no crates/$name/edits" >&2; exit 2; }
done
work=$(mktemp -d)
trap 'rm -rf "$work"' EXIT
mkdir "$work/repository"
copy_crates "$work/repository" "${names[@]}"
for name in "${names[@]}"; do
    cp -R "$top/crates/$name/edits" "$work/repository/crates/$name/must-fail"
done
wanted=$(find "$work/repository/crates" -path '*/must-fail/*' -type f | wc -l)

(cd "$work/repository" && rt ci 2>&1 </dev/null) | tee "$work/log" | tell_proved "$(wc -l <"$work/repository/crates.txt")" || true
sed -n 's/^rt: must-fail //p' "$work/log"
refused=$(grep -c '^rt: must-fail .*: refused, as it must be' "$work/log" || true)
if [ "$refused" != "$wanted" ]; then
    grep -E '^rt: .*(NOT PROVED|FAILED)' "$work/log" >&2 || true
    echo "bench/edits.sh: of $wanted edits $refused are refused" >&2
    exit 1
fi
