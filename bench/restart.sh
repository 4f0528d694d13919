#!/usr/bin/env bash
# Restarts a real daemon over a small site, and looks whether it goes on where it ended: after it was stopped, after it was killed, and
# after it was killed at any byte of its log. Outside the gate; it takes a minute or two.
#
# usage: bench/restart.sh [--program FILE]
#
# The daemon is run by packaging/keep, packaging/run and packaging/stop, as the unit runs it. It prints a line for each thing that isn't
# as it should be, and ends with 1 if there is one.
set -u
cd "$(dirname "${BASH_SOURCE[0]}")/.." || exit 1
top=$PWD
if [ "${1-}" = --program ]; then
    program=$(readlink -f "$2")
else
    program=$("$top/bin/program" </dev/null)
fi
room=$(mktemp -d)
trap 'rm -rf "$room"' EXIT
cd "$room" || exit 1
tried=0
failed=0

same() { # WHAT WANTED GOT
    tried=$((tried + 1))
    if [ "$2" != "$3" ]; then
        failed=$((failed + 1))
        printf '%s:\n  wanted: %s\n  got:    %s\n' "$1" "$2" "$3"
    fi
}

cat >site.conf <<'CONF'
object CheckCommand "c" {
  command = [ "true" ]
}
object NotificationCommand "n" {
  command = [ "true" ]
}
object User "anna" { }
object User "bob" { }
object Host "h" {
  check_command = "c"
  enable_active_checks = false
}
for (name in [ "acked", "planned", "told", "lasting", "silent" ]) {
  object Service name {
    host_name = "h"
    check_command = "c"
    enable_active_checks = false
    max_check_attempts = 1
  }
}
apply Notification "m" to Service {
  command = "n"
  users = [ "anna" ]
  assign where true
}
CONF
export ROOT=$room/site.conf COMMAND=$room/command LOG=$room/log STATE=$room/state PROGRAM=$program MAKE_STATE=$top/bin/state

start() {
    "$top/packaging/keep" 2>kept
    [ -e log ] || : >log
    begin=$(wc -l <log)
    "$top/packaging/run" 2>errors &
    daemon=$!
    # (it is there once its first turn is)
    for _ in $(seq 100); do
        tail -n "+$((begin + 1))" log 2>/dev/null | grep -q '^turn 1 ' && return
        sleep 0.1
    done
}
stop() {
    "$top/packaging/stop" "$daemon"
    wait "$daemon"
}
kill_it() {
    kill -9 "$daemon"
    wait "$daemon" 2>/dev/null
    kill "$(cat "$COMMAND.holder")"
}
tell() { # LINE, and two turns
    echo "[$(date +%s)] $1" >"$COMMAND"
}
result() { # SERVICE STATUS
    tell "PROCESS_SERVICE_CHECK_RESULT;h;$1;$2;told by hand"
}
# What came of the last event on a service: its number, the event, the state and the decisions.
last() { # SERVICE
    sleep 2.2
    grep "^entry \"h!$1\" " log | tail -n 1 | sed 's/^entry "[^"]*" \([0-9]*\) by 0 at [0-9]*: \(.*\) | "h" [0-9]* | \(.*\) | .*$/\1 \2 | \3/'
}

start
same "the first start" "the daemon begins anew: there is no log yet" "$(cat kept)"
for service in acked told lasting; do
    result $service 2
done
same "a problem is told" '1 passive 2 -> Critical HARD 1 | "h!told!m" Problem Sent "anna"' "$(last told)"
tell "ACKNOWLEDGE_SVC_PROBLEM;h;acked;2;0;0;me;I look at it"
now=$(date +%s)
tell "SCHEDULE_SVC_DOWNTIME;h;planned;$now;$((now + 3600));1;0;0;me;planned"
tell "DISABLE_SVC_NOTIFICATIONS;h;silent"
same "it is acknowledged" '2 ack sticky quiet -> Critical HARD 1 | -' "$(last acked)"
stop
same "it is stopped" 0 $?

start
same "the second start: nothing to say" "" "$(cat kept)"
for service in acked planned lasting silent; do
    result $service 2
done
result told 0
same "a recovery finds its receivers" '2 passive 0 -> OK HARD 1 | "h!told!m" Recovery Sent "anna"' "$(last told)"
same "an acknowledged problem isn't told again" '3 passive 2 -> Critical HARD 1 | "h!acked!m" Problem Acknowledged' "$(last acked)"
same "a problem that was told isn't told again" '2 passive 2 -> Critical HARD 1 | "h!lasting!m" Problem Repeat' "$(last lasting)"
same "a downtime still holds" '2 passive 2 -> Critical HARD 1 | "h!planned!m" Problem Downtime 1' "$(last planned)"
same "notifications are still off" '2 passive 2 -> Critical HARD 1 | "h!silent!m" Problem Disabled' "$(last silent)"
kill_it

start
tell "DEL_SVC_DOWNTIME;h;planned;1"
same "after a kill: the downtime is ended by its number" '3 undown 1 -> Critical HARD 1 | -' "$(last planned)"
result acked 0
same "after a kill: a recovery finds its receivers" '4 passive 0 -> OK HARD 1 | "h!acked!m" Recovery Sent "anna"' "$(last acked)"
# The log is rotated as logrotate does it, and the daemon stopped.
cp log log.1 && : >log
result lasting 2
same "behind a rotated log" '3 passive 2 -> Critical HARD 1 | "h!lasting!m" Problem Repeat' "$(last lasting)"
stop
gzip log.1

# A service and a user go, and a user comes: the others go on.
sed -i 's/"planned", //; s/object User "anna" { }//; s/"anna"/"bob"/' site.conf
start
same "another site: nothing to say" "" "$(cat kept)"
result lasting 0
same "another site: the one who was told is gone" '4 passive 0 -> OK HARD 1 | "h!lasting!m" Recovery NoUsers' "$(last lasting)"
stop

# A state file that is none, and a log that is none: it begins anew, and says so.
echo '[]' >state
echo 'entry "h" 1 by 0 at 1: tick -> Up HARD 1 | - | -' >log
start
same "a bad state file" "begins anew" "$(grep -o 'begins anew' kept)"
result told 2
same "a bad state file: it runs" '1 passive 2 -> Critical HARD 1 | "h!told!m" Problem Sent "bob"' "$(last told)"
stop

# Killed at any byte of its log, ten times: what it goes on with has each entry of the turns before the one that was being written, and
# none that isn't in the log.
same "killed at any byte" "10 kills" "$(python3 - "$program" "$top" <<'PYTHON'
import json, random, re, subprocess, sys, threading, time

program, top = sys.argv[1:]
with open("many.conf", "w", encoding="utf-8") as file:
    file.write('object CheckCommand "c" { command = [ "true" ] }\nobject Host "h" { check_command = "c"; enable_active_checks = false }\n'
               'for (i in range(40)) { object Service "s" + i { host_name = "h"; check_command = "c"; enable_active_checks = false } }\n')
ENTRY = re.compile(rb'entry "([^"]*)" (\d+) ')


def feed(pipe):
    try:
        while True:
            lines = (f"[{int(time.time())}] PROCESS_SERVICE_CHECK_RESULT;h;s{random.randrange(40)};{random.randrange(4)};größer\n" for _ in range(100))
            pipe.write("".join(lines).encode())
            pipe.flush()
            time.sleep(0.2)
    except OSError:
        pass


def made(*paths):
    ran = subprocess.run([f"{top}/bin/state", *paths], stdout=subprocess.PIPE, check=True)
    return ran.stdout, {one["name"].encode(): [line.encode() for line in one["entries"]] for one in json.loads(ran.stdout)["checkables"]}


open("many.log", "wb").close()
before, kills = {}, 0
for _ in range(10):
    text, known = made("many.log")
    with open("many.state", "wb") as file:
        file.write(text)
    daemon = subprocess.Popen([program, "daemon", "many.conf", "many.state", "--log", "2"], stdin=subprocess.PIPE, stdout=subprocess.PIPE)
    threading.Thread(target=feed, args=(daemon.stdin,), daemon=True).start()
    log = daemon.stdout.read(random.randrange(1, 150000))
    daemon.kill()
    daemon.wait()
    with open("many.log", "ab") as file:
        file.write(log)
    # Of the lines so far the whole ones, and which of them are of turns before the last.
    lines = log.split(b"\n")[:-1]
    turns = [at for at, line in enumerate(lines) if line.startswith(b"turn ")]
    whole = [line for line in lines[: turns[-1] if turns else 0] if line.startswith(b"entry ")]
    written = [line for line in lines if line.startswith(b"entry ")]
    _, after = made("many.log")
    _, again = made("many.state", "many.log")
    sure, most = dict(known), dict(known)
    for of, lines in ((sure, whole), (most, written)):
        for line in lines:
            name = ENTRY.match(line)[1]
            of[name] = [*of.get(name, []), line]
    faults = [name for name in most if not (sure.get(name, []) == after.get(name, [])[: len(sure.get(name, []))] and after.get(name, []) == most[name][: len(after.get(name, []))])]
    numbers = [name for name, of in most.items() if [int(ENTRY.match(line)[2]) for line in of] != list(range(1, len(of) + 1))]
    if faults or numbers or after != again or set(after) - set(most):
        print("not as it should be:", faults, numbers, after == again)
    else:
        kills += 1
print(f"{kills} kills")
PYTHON
)"
echo "$tried tried, $failed not as they should be"
[ "$failed" = 0 ]
