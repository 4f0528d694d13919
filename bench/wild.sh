#!/usr/bin/env bash
# Runs the daemon over hostile surroundings: signals, a want of descriptors and processes, a clock that jumps, standard input that ends,
# and a full disk. Outside the gate; it takes a minute or two.
#
# usage: bench/wild.sh [--program FILE]
#
# The clock is tried if faketime is installed, and a full disk if a file system can be mounted (as root). It prints a line for each
# thing that isn't as it should be, and ends with 1 if there is one.
set -u
cd "$(dirname "${BASH_SOURCE[0]}")/.." || exit 1
top=$PWD
if [ "${1-}" = --program ]; then
    program=$(readlink -f "$2")
else
    program=$("$top/bin/program" </dev/null)
fi
room=$(mktemp -d)
trap 'rm -rf "$room"' EXIT
cd "$room" || exit 1
tried=0
failed=0

same() { # WHAT WANTED GOT
    tried=$((tried + 1))
    if [ "$2" != "$3" ]; then
        failed=$((failed + 1))
        printf '%s:\n  wanted: %s\n  got:    %s\n' "$1" "$2" "$3"
    fi
}

site() { # FILE HOSTS SECONDS AT-ONE-TIME: that many hosts with a check that takes so many seconds
    cat >"$1" <<CONF
const MaxConcurrentChecks = $4
object CheckCommand "c" {
  command = [ "/bin/sh", "-c", "sleep $3; echo fine" ]
}
for (i in range($2)) {
  object Host "h" + i {
    check_command = "c"
    check_interval = 1
    retry_interval = 1
  }
}
CONF
}

# How many results of a log are well, and how many are something else.
results() {
    echo "$(grep -c ': result 0 -> Up ' "$1") well, $(grep ': result ' "$1" | grep -vc ': result 0 -> Up ') not"
}

# Whether each order of a log has its result.
is_whole() {
    [ "$(grep -c '^order ' "$1")" = "$(grep -c ': result ' "$1")" ] && [ "$(tail -c 1 "$1")" = "" ] && echo yes || echo no
}

# Signals. SIGCHLD is ignored by whoever started it: the wrapper of the service sets it right, and without it the log says what happened.
site one.conf 1 0 4
sh -c "trap '' CHLD; (sleep 2) | exec env --default-signal '$program' daemon one.conf --log 2" >log 2>/dev/null
same "an ignored SIGCHLD, set right by env" "0 not" "$(results log | cut -d ' ' -f 3-)"
sh -c "(sleep 2) | exec env --ignore-signal=CHLD '$program' daemon one.conf --log 2" >log 2>/dev/null
same "an ignored SIGCHLD: what the log says" "its end can't be known" "$(grep -o "its end can't be known" log | head -n 1)"
for signal in TERM INT HUP USR1; do
    env --default-signal "$program" daemon one.conf < <(exec sleep 30) >log 2>/dev/null &
    daemon=$!
    sleep 1.5
    kill -"$signal" "$daemon"
    wait "$daemon" 2>/dev/null
    status=$?
    same "SIG$signal ends it" $((128 + $(kill -l "$signal"))) "$status"
    same "SIG$signal: the log is of whole turns" 0 "$(grep -vcE '^(turn|entry|order) ' log)"
done

# Descriptors and processes. There aren't enough for all checks at one time: each waits, and none is told as not running.
site many.conf 40 1 40
(ulimit -n 40; (sleep 6) | "$program" daemon many.conf --log 2 >log 2>errors)
same "few descriptors: no check that can't be run" "0 not" "$(results log | cut -d ' ' -f 3-)"
same "few descriptors: every host was checked" 40 "$(grep ': result 0' log | cut -d ' ' -f 2 | sort -u | wc -l)"

# Standard input ends: what runs ends, and nothing more begins.
site slow.conf 3 3 8
begin=$(date +%s)
(sleep 2) | "$program" daemon slow.conf --log 2 >log
same "standard input ended: the status" 0 $?
same "standard input ended: each order has its result" yes "$(is_whole log)"
took=$(($(date +%s) - begin))
same "standard input ended: it took no longer than the slowest check" yes "$([ $took -le 8 ] && echo yes || echo "no, $took s")"
"$program" daemon slow.conf >log </dev/null
same "an empty standard input" "0 0" "$? $(wc -c <log | tr -d ' ')"
"$program" daemon slow.conf >log <&- 2>errors
same "no standard input" "5 icinga_site: WorldFault" "$? $(cat errors)"

# Outputs: large, late, early and never; a plugin that leaves something behind.
cat >outputs.conf <<'CONF'
for (name => script in {
  large = "head -c 3000000 /dev/zero | tr '\\0' x; exit 2"
  behind = "sleep 20 & echo left"
  killed = "kill -9 $$$$"
  early = "exec >&- 2>&-; sleep 1; exit 1"
}) {
  object CheckCommand name use (script) {
    command = [ "/bin/sh", "-c", script ]
  }
  object Host name {
    check_command = name
    check_interval = 100
    retry_interval = 100
  }
}
CONF
(sleep 4) | "$program" daemon outputs.conf --log 2 >log
same "outputs: the statuses" "behind 0 early 1 killed 3 large 2" "$(sed -n 's/^entry "\(.*\)" 1 .*: result \(.\) .*/\1 \2/p' log | sort | xargs)"
same "outputs: what is kept" 65536 "$(sed -n 's/^entry "large".* | "\(x*\)" ""$/\1/p' log | tr -d '\n' | wc -c)"

# A full disk ends it with 4; what was written is the beginning of the log.
(sleep 3) | "$program" daemon one.conf >/dev/full 2>errors
same "a full device" "icinga_site: WriteFault" "$(cat errors)"
mkdir disk
if mount -t tmpfs -o size=64k tmpfs disk 2>/dev/null; then
    site busy.conf 300 0 400
    (sleep 10) | "$program" daemon busy.conf --log 2 >disk/log 2>errors
    same "a full disk" "icinga_site: WriteFault" "$(cat errors)"
    same "a full disk: the log is whole but for its last line" 0 "$(head -n -1 disk/log | grep -vcE '^(log 2$|turn|entry|order) ?')"
    umount disk
else
    echo "a full disk isn't tried: no file system can be mounted"
fi

# An allocator that is named for the program alone isn't handed on to checks; what else is preloaded is.
cat >preload.conf <<CONF
object CheckCommand "seen" { command = [ "/bin/sh", "-c", "env | grep -c -e LD_PRELOAD -e ICINGA_SITE_ALLOCATOR" ] }
object Host "h" { check_command = "seen" }
CONF
library=$(ldconfig -p | sed -n 's/.*libm\.so\.6 .*x86-64.* => //p' | head -n 1)
same "an allocator of its own" '"0"' "$(sleep 2 | LD_PRELOAD=$library ICINGA_SITE_ALLOCATOR=$library "$program" daemon preload.conf --log 2 | grep -o '"[0-9]"' | head -n 1)"
same "what else is preloaded" '"1"' "$(sleep 2 | LD_PRELOAD=$library "$program" daemon preload.conf --log 2 | grep -o '"[0-9]"' | head -n 1)"

# A clock that is set forward and back: checks go on.
if command -v faketime >/dev/null; then
    site clock.conf 1 0 4
    library=$(find /usr/lib -name 'libfaketime*.so.1' 2>/dev/null | head -n 1)
    echo "+0" >offset
    (
        sleep 2
        echo "+86400" >offset
        sleep 2
        echo "+0" >offset
        sleep 6
    ) | FAKETIME_TIMESTAMP_FILE=$room/offset FAKETIME_NO_CACHE=1 FAKETIME_DONT_FAKE_MONOTONIC=1 \
        LD_PRELOAD=$library "$program" daemon clock.conf --log 2 >log
    same "a clock that jumps: checks go on" yes "$([ "$(grep -c ': result 0' log)" -ge 3 ] && echo yes || echo "no, $(grep -c ': result 0' log) results")"
    same "a clock that jumps: moments don't fall" yes "$(sed -n 's/^turn [0-9]* //p' log | sort -nc 2>&1 && echo yes)"
    same "a clock that jumps: it did jump" yes "$(sed -n 's/^turn [0-9]* //p' log | awk 'NR > 1 && $1 - last > 80000 { jumped = 1 } { last = $1 } END { print jumped ? "yes" : "no" }')"

    # As many checks as may be for five minutes, which the clock makes of a second: one line then, and one when it is over.
    cat >full.conf <<CONF
const MaxConcurrentChecks = 1
object CheckCommand "slow" { command = [ "/bin/sleep", "4" ] }
object Host "h" { check_command = "slow"; check_interval = 1d }
CONF
    echo "+0" >offset
    (
        sleep 2
        echo "+600" >offset
        sleep 4
    ) | FAKETIME_TIMESTAMP_FILE=$room/offset FAKETIME_NO_CACHE=1 FAKETIME_DONT_FAKE_MONOTONIC=1 \
        LD_PRELOAD=$library "$program" daemon full.conf 2>said >log
    same "as many checks as may be: it is said" "icinga_site: for five minutes as many checks have been outstanding as MaxConcurrentChecks allows: 1; others wait
icinga_site: fewer checks are outstanding than MaxConcurrentChecks allows" "$(cat said)"
else
    echo "the clock isn't tried: faketime isn't installed"
fi

echo "$tried tried, $failed not as they should be"
[ "$failed" = 0 ]
