#!/usr/bin/env bash
# Runs the built program with the C library's allocator and under mimalloc (Debian's libmimalloc2.0), in turns: a commit of 10,000 hosts
# whose services come of rules, and 600,000 passive results over 1,000 hosts with services and notifications.
#
# usage: bench/allocator.sh [PROGRAM]
#
# Prints processor seconds, the least of three runs, the memory at its peak, and mimalloc's share of the time.
set -eu
top=$(cd "$(dirname "$(readlink -f "${BASH_SOURCE[0]}")")/.." && pwd)
program=${1:-$("$top/bin/program")}
library=
for file in /usr/lib/x86_64-linux-gnu/libmimalloc.so.2 /usr/lib64/libmimalloc.so.2 /usr/lib/libmimalloc.so.2; do
    [ -r "$file" ] && library=$file && break
done
[ -n "$library" ] || { echo "it takes libmimalloc.so.2: apt-get install libmimalloc2.0" >&2; exit 1; }
work=$(mktemp -d)
trap 'rm -rf "$work"' EXIT

# timed PRELOAD WORD ..: processor seconds, and the peak in KiB, of the quickest of three runs
timed() {
    local preload=$1
    shift
    for _ in 1 2 3; do
        /usr/bin/time -f '%U %S %M' -o "$work/time" env ${preload:+"LD_PRELOAD=$preload"} "$program" "$@" >/dev/null
        awk '{ print $1 + $2, $3 }' "$work/time"
    done | sort -n | head -1
}

# row NAME WORD ..
row() {
    local name=$1 own other
    shift
    own=$(timed "" "$@")
    other=$(timed "$library" "$@")
    awk -v name="$name" -v own="$own" -v other="$other" 'BEGIN {
        split(own, a, " ")
        split(other, b, " ")
        printf "%s: %.2f s, %d MB; under mimalloc %.2f s, %d MB: %.2f of the time\n", name, a[1], a[2] / 1024, b[1], b[2] / 1024, b[1] / a[1]
    }'
}

cat >"$work/rich" <<'CONF'
template Host "base" { check_command = "c"; vars.disks = { a = { w = 1 }; b = { w = 2 } }; vars.kind = "linux"; enable_active_checks = false }
object CheckCommand "c" { command = [ "/bin/true" ] }
object HostGroup "linux" { assign where host.vars.kind == "linux" }
for (i in range(10000)) { object Host "h" + i use (i) { import "base"; address = "10.0.0." + i; vars.number = i } }
apply Service "ping" { check_command = "c"; display_name = host.name + " ping"; assign where host.address }
apply Service "disk " for (name => disk in host.vars.disks) { check_command = "c"; vars += disk; assign where host.vars.kind == "linux" }
CONF
row "a commit of 10,000 hosts with 30,000 services" check "$work/rich"

cat >"$work/results" <<'CONF'
object CheckCommand "c" { command = [ "/bin/true" ] }
object NotificationCommand "n" { command = [ "/bin/true" ] }
object User "u" { }
for (i in range(1000)) { object Host "h" + i { check_command = "c"; enable_active_checks = false } }
apply Service "s" { check_command = "c"; enable_active_checks = false; assign where true }
apply Notification "m" to Service { command = "n"; users = [ "u" ]; assign where true }
CONF
awk 'BEGIN {
    for (n = 0; n < 600000; n++) {
        if (n % 100 == 0) printf "turn %d\n", 1001 + n / 100
        printf "line \"[1] PROCESS_SERVICE_CHECK_RESULT;h%d;s;%d;PING\"\n", n % 1000, n % 7 == 0 ? 2 : 0
    }
}' >"$work/script"
row "600,000 passive results" replay "$work/results" "$work/script"
