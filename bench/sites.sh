#!/usr/bin/env bash
# Lists sites of hosts and a check command with the built program: so many files with so many hosts each. Prints bytes read,
# seconds, peak memory and peak memory a byte, for each size, each twice as large as the one before.
set -eu
top=$(cd "$(dirname "$(readlink -f "${BASH_SOURCE[0]}")")/.." && pwd)
work=$(mktemp -d)
trap 'rm -rf "$work"' EXIT
program=$("$top/bin/program")

# a site of so many files and hosts a file
make_site() {
    local folder=$1 files=$2 hosts=$3
    mkdir -p "$folder/conf.d"
    printf 'include "commands.conf"\ninclude_recursive "conf.d"\n' >"$folder/icinga2.conf"
    printf 'object CheckCommand "hostalive" {\n  command = "/usr/lib/nagios/plugins/check_ping"\n}\n' >"$folder/commands.conf"
    awk -v files="$files" -v hosts="$hosts" -v folder="$folder" 'BEGIN {
        for (f = 0; f < files; f++) {
            name = sprintf("%s/conf.d/hosts%05d.conf", folder, f)
            for (h = 0; h < hosts; h++)
                printf "object Host \"host-%d-%d\" {\n  check_command = \"hostalive\"\n  address = \"192.0.2.1\"\n  max_check_attempts = 5\n}\n\n", f, h > name
            close(name)
        }
    }'
}

# one file of almost 4 MiB
make_site "$work/one" 1 37500
/usr/bin/time -f '%U %S' -o "$work/time" taskset -c 0 "$program" objects "$work/one/icinga2.conf" >"$work/out"
awk -v b="$(cat "$work/one"/*.conf "$work/one"/conf.d/* | wc -c)" '{ printf "one file, %.1f MB: %.2f s, %.0f ns a byte\n", b / 1e6, $1 + $2, ($1 + $2) / b * 1e9 }' "$work/time"

for files in 25 50 100 200; do
    make_site "$work/$files" "$files" 860
    bytes=$(cat "$work/$files"/*.conf "$work/$files"/conf.d/* | wc -c)
    /usr/bin/time -f '%e %M' -o "$work/time" taskset -c 0 "$program" objects "$work/$files/icinga2.conf" >"$work/out"
    read -r seconds memory <"$work/time"
    lines=$(wc -l <"$work/out")
    awk -v f="$files" -v b="$bytes" -v s="$seconds" -v m="$memory" -v l="$lines" \
        'BEGIN { printf "%d files, %.1f MB, %d objects: %.2f s, %.0f MB, %.1f bytes a byte\n", f, b / 1e6, l, s, m / 1024, m * 1024 / b }'
done
