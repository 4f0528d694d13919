#!/usr/bin/env bash
# Runs the daemon with real plugins of Debian (monitoring-plugins-basic), and looks at what its log holds at the end:
#
#   plugins   200 services at one second for two minutes, with command lines on standard input, plugins that write megabytes, fork, close their
#             output late, or are killed
#   full      the log on a full disk
#   many      10,000 services with /bin/true at ten seconds for two minutes: late checks, processor seconds, memory an entry
#
# The first argument is a built icinga_site to take, the second how many seconds each lasts in place of 120.
set -eu
top=$(cd "$(dirname "$(readlink -f "${BASH_SOURCE[0]}")")/.." && pwd)
program=${1:-$("$top/bin/program")}
seconds=${2:-120}
work=$(mktemp -d)
trap 'umount "$work/disk" 2>/dev/null || true; rm -rf "$work"' EXIT
plugins=/usr/lib/nagios/plugins
[ -x "$plugins/check_dummy" ] || { echo 'monitoring-plugins-basic is needed' >&2; exit 1; }

failed=0
# whether something holds, and what was looked for
holds() {
    if [ "$1" -eq 0 ]; then echo "  holds: $2"; else echo "  FAILS: $2"; failed=1; fi
}
at_least() {
    local is=1
    if [ "$1" -ge "$2" ]; then is=0; fi
    holds "$is" "$3: $1, at least $2"
}
exactly() {
    local is=1
    if [ "$1" -eq "$2" ]; then is=0; fi
    holds "$is" "$3: $1, exactly $2"
}
lines_of() { grep -cE "$1" "$work/log" || true; }

plugins_site() {
    cat >"$work/plugins.conf" <<CONF
const PluginDir = "$plugins"
include <plugins>
object CheckCommand "flood" { command = "head -c 3000000 /dev/zero | tr '\\\\0' x; exit 1" }
object CheckCommand "forks" { command = "sleep 7 & echo left a child behind" }
object CheckCommand "late" { command = [ "/bin/sh", "-c", "exec >&- 2>&-; sleep 1; exit 2" ] }
object CheckCommand "killed" { command = [ "/bin/sleep", "4321" ] }
object CheckCommand "missing" { command = [ "$work/no such program" ] }
object Host "h" { check_command = "dummy"; enable_active_checks = false }
for (i in range(190)) {
  object Service "s" + i use (i) {
    host_name = "h"
    check_command = "dummy"
    vars.dummy_state = i % 4
    check_interval = 1
    retry_interval = 1
  }
}
for (name in [ "load", "procs", "users", "swap", "flood", "forks", "late", "killed", "missing" ]) {
  object Service name use (name) { host_name = "h"; check_command = name; check_interval = 1; retry_interval = 1 }
}
object Service "passive" { host_name = "h"; check_command = "dummy"; enable_active_checks = false }
CONF
}

# a result, a line that names nobody and an acknowledgement a second, and every plugin that never ends is killed
feed() {
    for ((n = 0; n < seconds; n++)); do
        echo "[$(date +%s)] PROCESS_SERVICE_CHECK_RESULT;h;passive;$((n % 3));result $n"
        echo "[$(date +%s)] ENABLE_HOST_CHECK;nobody"
        echo "[$(date +%s)] ACKNOWLEDGE_SVC_PROBLEM;h;s2;1;1;0;me;seen"
        pkill -9 -f '^/bin/sleep 4321' || true
        sleep 1
    done
    sleep 3
}

run_plugins() {
    echo "plugins, $seconds s"
    plugins_site
    local status=0
    mkfifo "$work/command"
    "$program" daemon "$work/plugins.conf" 0<>"$work/command" >"$work/log" 2>"$work/errors" &
    local daemon=$!
    feed >"$work/command"
    kill -TERM "$daemon"
    wait "$daemon" || status=$?
    pkill -9 -f '^/bin/sleep 4321' || true
    exactly "$status" 143 'status'
    exactly "$(lines_of '"h!passive" .*: passive ')" "$seconds" 'passive results'
    exactly "$(lines_of '^refused line [0-9]+ UnknownCheckable')" "$seconds" 'lines that name nobody'
    exactly "$(lines_of '"h!s2" .*: ack ')" "$seconds" 'acknowledgements'
    at_least "$(lines_of '"h!s0" .*: result 0 -> OK')" $((seconds * 4 / 10)) 'results of a service that is well'
    at_least "$(lines_of '"h!s2" .*: result 2 -> Critical')" $((seconds * 4 / 10)) 'results of one that is not'
    exactly "$(lines_of '"h!s2" .*: result [013] ')" 0 'results of it with another status'
    at_least "$(lines_of '"h!procs" .*: result [012] ')" $((seconds * 3 / 10)) 'results of check_procs'
    at_least "$(lines_of '"h!flood" .*: result 1 ')" $((seconds * 2 / 10)) 'results of the plugin that writes megabytes'
    at_least "$(lines_of '"h!forks" .*: result 0 ')" $((seconds * 2 / 10)) 'results of the plugin that leaves a child behind'
    at_least "$(lines_of '"h!late" .*: result 2 ')" $((seconds * 1 / 10)) 'results of the plugin that closes its output'
    at_least "$(lines_of '"h!killed" .*: result 3 ')" $((seconds * 2 / 10)) 'results of the plugin that is killed'
    at_least "$(lines_of '"h!missing" .*: result 3 ')" $((seconds * 3 / 10)) 'results of the program that is not there'
    exactly "$(lines_of '^refused report')" 0 'refused reports'
    at_least "$(lines_of ': result ')" $(($(lines_of '^order ') - 200)) 'results, of all orders but those whose checks still ran'
    exactly "$(pgrep -fc '^/bin/sleep 4321' || true)" 0 'children that are left'
}

run_full() {
    echo 'full'
    plugins_site
    mkdir -p "$work/disk"
    dd if=/dev/zero of="$work/image" bs=1024 count=1024 status=none
    mkfs.ext2 -q "$work/image"
    if ! mount -o loop "$work/image" "$work/disk" 2>/dev/null; then
        echo '  (no loop device here: a small tmpfs stands for it)'
        mount -t tmpfs -o size=64k none "$work/disk"
    fi
    local status=0
    (sleep 60; pkill -9 -f '^/bin/sleep 4321' || true) | "$program" daemon "$work/plugins.conf" >"$work/disk/log" 2>"$work/errors" || status=$?
    pkill -9 -f '^/bin/sleep 4321' || true
    exactly "$status" 4 'status'
    exactly "$(grep -c WriteFault "$work/errors")" 1 'its name on standard error'
    at_least "$(wc -c <"$work/disk/log")" 10000 'bytes that were written'
    exactly "$(head -n -1 "$work/disk/log" | grep -cvE '^(turn|order|entry|refused) ')" 0 'lines that are none of a log'
    umount "$work/disk"
}

run_many() {
    echo "many, $seconds s"
    cat >"$work/many.conf" <<'CONF'
const MaxConcurrentChecks = 20000
object CheckCommand "true" { command = [ "/bin/true" ] }
object Host "h" { check_command = "true"; enable_active_checks = false }
for (i in range(10000)) {
  object Service "s" + i { host_name = "h"; check_command = "true"; check_interval = 10; retry_interval = 10 }
}
CONF
    local status=0
    sleep "$seconds" | /usr/bin/time -f '%U %S %M' -o "$work/time" timeout $((seconds + 60)) "$program" daemon "$work/many.conf" >"$work/log" 2>"$work/errors" || status=$?
    exactly "$status" 0 'status'
    exactly "$(lines_of '^order ')" "$(lines_of ': result 0 ')" 'orders, by their results'
    read -r user system memory <"$work/time"
    awk -v u="$user" -v s="$system" -v m="$memory" '
        /^turn / { moment = $3 }
        /^order / { name = $3; if (name in last) { gap = moment - last[name]; gaps++; if (gap > 12) late++ } last[name] = moment; orders++ }
        /^entry / { entries++ }
        END {
            printf "  %d orders, %d of %d checks later than two seconds, %d entries, %.1f s of the processor, %.0f MB, %.0f bytes an entry\n", orders, late, gaps, entries, u + s, m / 1024, m * 1024 / entries
        }' "$work/log"
}

run_plugins
run_full
run_many
exit "$failed"
