#!/usr/bin/env bash
# Tries the tools of bin/ that read logs and diagnostics, over stored logs: bin/now, bin/on-sent, bin/state and bin/explain, and the
# completion of words. It needs no program, prints a line for each thing that isn't as it should be, and ends with 1 if there is one.
set -u
cd "$(dirname "${BASH_SOURCE[0]}")/.." || exit 1
export TZ=UTC
scratch=$(mktemp -d)
trap 'rm -rf "$scratch"' EXIT
tried=0
failed=0

same() { # WHAT WANTED GOT
    tried=$((tried + 1))
    if [ "$2" != "$3" ]; then
        failed=$((failed + 1))
        printf '%s:\n  wanted: %s\n  got:    %s\n' "$1" "$2" "$3"
    fi
}

now() { bin/now "$@"; }

# What is down, the longest first, with who was told or why nobody was.
same "now, version 1" "$(cat <<'LINES'
Critical HARD   db1!disk  since 2025-11-24 16:00:00 (4m)  in downtime 4  told chris at 2025-11-24 16:02:00
Down     HARD   db1  since 2025-11-24 16:01:00 (3m)  nobody told: NoUsers
Down     HARD   web "a"  since 2025-11-24 16:03:00 (1m)  acknowledged (sticky)  told anna at 2025-11-24 16:03:00
3 of 4 are down at 2025-11-24 16:04:00
LINES
)" "$(now bench/logs/one.log)"
now bench/logs/one.log >/dev/null
same "now's status, with a problem that nobody acknowledged" 1 $?
same "now, all" 5 "$(now --all bench/logs/one.log | wc -l)"
same "now, after the downtime" 0 "$(now --at 1764003840 bench/logs/one.log | grep -c 'in downtime')"
same "now, version 2" "$(cat <<'LINES'
Warning  HARD   db1!load  since 2025-11-24 16:06:00 (1m)  acknowledged (normal)  in downtime 2  nobody told: Downtime 2  load high
1 of 2 are down at 2025-11-24 16:07:00
LINES
)" "$(now bench/logs/two.log)"
now bench/logs/two.log >/dev/null
same "now's status, where all is acknowledged" 0 $?
# A daemon that began anew forgets what stood before; the order of the files doesn't matter.
same "now, two runs" "$(now bench/logs/two.log)" "$(now bench/logs/two.log bench/logs/one.log)"
gzip -c bench/logs/one.log >"$scratch/log.2.gz"
same "now, rotated and packed" "$(now bench/logs/one.log)" "$(now "$scratch/log.2.gz")"
same "now, JSON" 'db1!disk Critical HARD 1764000000 4 chris' "$(now --json bench/logs/one.log | python3 -c '
import json, sys
it = json.load(sys.stdin)["problems"][0]
print(it["name"], it["state"], it["type"], it["since"], it["downtime"], *it["told"])')"
same "now, an output that looks like a decision" 'DISK CRITICAL - | "/" full, " Problem " Sent' \
    "$(head -n 3 bench/logs/two.log >"$scratch/first"; now --json "$scratch/first" | python3 -c 'import json, sys; print(json.load(sys.stdin)["problems"][0]["output"])')"
printf '%s\n' 'log 2' 'turn 1 1' 'entry "a" 1 by 0 at 1: passive 2 -> Down HARD 1 | - | "a!m" Problem Sent "u" | "x" ""' 'entry "b" 1 by 0 at 1: passive 2 -> Down HARD 1 | - | - | "x" ""' \
    'turn 2 2' 'entry "a" 2 by 0 at 2log 2' 'turn 1 3' 'entry "a" 2 by 0 at 3: ack normal quiet -> Down HARD 1 | - | - | -' >"$scratch/goes-on"
same "now, a daemon that was killed and goes on" "$(cat <<'LINES'
Down     HARD   a  since 1970-01-01 00:00:01 (0m)  acknowledged (normal)  told u at 1970-01-01 00:00:01  x
Down     HARD   b  since 1970-01-01 00:00:01 (0m)  nobody told: no notification  x
2 of 2 are down at 1970-01-01 00:00:03
LINES
)" "$(now "$scratch/goes-on")"
# The turn in which it was killed doesn't count, and neither does what stood before missing entries.
sed 's/^entry "a" 2 by 0 at 2log 2$/entry "a" 2 by 0 at 2: ack normal quiet -> Down HARD 1 | - | - | -\nentry "b" 2 by 0log 2/; s/3: ack normal quiet/3: passive 2/' "$scratch/goes-on" >"$scratch/killed-turn"
same "now, a turn in which the daemon was killed" 0 "$(now "$scratch/killed-turn" | grep -c acknowledged)"
sed 's/^entry "a" 2 by 0 at 3: ack/entry "a" 3 by 0 at 3: checks off/; s/off normal quiet/off/' "$scratch/goes-on" >"$scratch/gap"
same "now, a daemon that goes on behind missing entries" "$(cat <<'LINES'
Down     HARD   b  since 1970-01-01 00:00:01 (0m)  nobody told: no notification  x
Down     HARD   a  since 1970-01-01 00:00:03 (0m)  nobody told: no notification
2 of 2 are down at 1970-01-01 00:00:03
LINES
)" "$(now "$scratch/gap")"
# Of the one that begins anew since entries of it are missing, nothing counts but that; the others stand, whether they have entries yet or not.
printf '%s\n' 'log 2' 'turn 1 9' 'entry "a" 1 by 0 at 9: passive 0 -> Up HARD 1 | - | - | "y" ""' 'turn 2 10' 'entry "c" 2 by 0 at 10: passive 0 -> Up HARD 1 | - | - | "z" ""' >"$scratch/partly"
same "now, a daemon that goes on but for one" "$(cat <<'LINES'
Down     HARD   b  since 1970-01-01 00:00:01 (0m)  nobody told: no notification  x
1 of 3 are down at 1970-01-01 00:00:10
LINES
)" "$(now "$scratch/goes-on" "$scratch/partly")"
same "now, a daemon that begins anew" "0 of 1 are down at 1970-01-01 00:00:09" "$(head -n 3 "$scratch/partly" >"$scratch/anew"; now "$scratch/goes-on" "$scratch/anew")"
now "$scratch/none" 2>/dev/null
same "now's status, without a log" 2 $?
printf 'turn 1 1\nentry "a" 1 by 0 at 1: passive 2 -> Down HARD 1 | - | -' >"$scratch/cut"
same "now, a line that is being written" "0 of 0 are down at 1970-01-01 00:00:01" "$(now "$scratch/cut")"

# It follows a log that grows, and one that was cut.
head -n 4 bench/logs/one.log >"$scratch/growing"
bin/now --follow "$scratch/growing" >"$scratch/followed" &
follower=$!
shown() { # TIMES: waits until that many of its lines are there, half a minute at most
    for _ in $(seq 300); do
        [ "$(grep -c ' are down at ' "$scratch/followed")" -ge "$1" ] && return
        sleep 0.1
    done
}
shown 1
tail -n +5 bench/logs/one.log >>"$scratch/growing"
shown 2
cp bench/logs/two.log "$scratch/growing.new" && cat "$scratch/growing.new" >"$scratch/growing"
shown 3
kill "$follower"
wait "$follower" 2>/dev/null
same "now, following" "$(printf '%s\n' '1 of 2 are down at 2025-11-24 16:01:00' '3 of 4 are down at 2025-11-24 16:04:00' '1 of 2 are down at 2025-11-24 16:07:00')" \
    "$(grep ' are down at ' "$scratch/followed")"

# Each decision that was sent is told once, also over a log that grew, was cut by copytruncate, or was moved.
log=$scratch/log
sent() { bin/on-sent --once "$@" "$log" sh -c 'printf "%s %s %s\n" "$SENT_KIND" "$SENT_NOTIFICATION" "$(printf %s "$SENT_USERS" | tr "\n" ,)"' 2>&1; }
cp bench/logs/one.log "$log"
same "on-sent, all of a log" "$(cat <<'LINES'
Problem db1!disk!mail anna,bob
Problem db1!disk!sms chris
Problem web "a"!mail anna
Acknowledgement web "a"!mail anna
LINES
)" "$(sent --from-start)"
same "on-sent, again" "" "$(sent)"
printf 'turn 6 1764000250\nentry "fine" 2 by 0 at 1764000250: result 2 -> Down HARD 1 | - | "fine!mail" Problem Sent "bob"' >>"$log"
same "on-sent, a line that is being written" "" "$(sent)"
printf '\n' >>"$log"
cp "$log" "$log.1"
cp bench/logs/two.log "$log"
same "on-sent, the rest of a log that was cut, and the new one" "$(cat <<'LINES'
Problem fine!mail bob
Problem db1!disk!mail anna
Recovery db1!disk!mail anna
LINES
)" "$(sent)"
same "on-sent, again after that" "" "$(sent)"
rm -f "$log.sent"
same "on-sent, without a position it begins at the end" "" "$(sent)"
same "on-sent, a command that fails" "on-sent: false ended with 1 for db1!disk!mail" \
    "$(bin/on-sent --once --from-start --position "$scratch/p" "$log" false 2>&1 | head -n 1)"
same "on-sent, its fields" 'db1 disk OK HARD 1 1764000360 DISK OK' \
    "$(bin/on-sent --once --from-start --position "$scratch/q" "$log" sh -c 'echo "$SENT_HOST" "$SENT_SERVICE" "$SENT_STATE" "$SENT_TYPE" "$SENT_ATTEMPT" "$SENT_MOMENT" "$SENT_OUTPUT"' | tail -n 1)"

printf 'turn 1 1\nentry "a" 1 by 0 at 1: passive 2 -> Down HARD 1 | - | "a!m" Problem Sent "ulog 2\nturn 1 2\nentry "a" 1 by 0 at 2: passive 2 -> Down HARD 1 | - | "a!m" Problem Sent "u" | "x" ""\n' >"$scratch/killed"
same "on-sent, a daemon that was killed and goes on" "2 u" "$(bin/on-sent --once --from-start "$scratch/killed" sh -c 'echo "$SENT_MOMENT" "$SENT_USERS"')"

# The mail of examples/mail.sh, by a `mail` that writes what it was given.
mkdir "$scratch/bin"
printf '#!/bin/sh\necho "$@"; cat\n' >"$scratch/bin/mail"
chmod +x "$scratch/bin/mail"
printf 'User "anna" {"email":"anna@example.org","name":"anna"}\nUser "bob" {"name":"bob"}\n' >"$scratch/objects"
same "mail.sh, its recipients" "$(printf '%s\n' '-s Problem: db1!disk is Critical -- anna@example.org' '-s Problem: db1!disk is Critical -- bob')" \
    "$(cp bench/logs/one.log "$scratch/m"; PATH=$scratch/bin:$PATH LISTING=$scratch/objects bin/on-sent --once --from-start "$scratch/m" examples/mail.sh | grep '^-s' | head -n 2)"

# A state file has the entries of a log as they are, by host and service, each once.
cat >"$scratch/first.log" <<'LINES'
log 2
turn 1 100
entry "a" 1 by 0 at 100: result 2 -> Down HARD 1 | - | "a!m" Problem Sent "u" "v" | "no \"answer\"" "t=1s"
entry "ä \"b" 1 by 0 at 100: result 0 -> Up HARD 1 | - | - | "läuft" ""
entry "a!s" 1 by 0 at 100: result 0 -> OK HARD 1 | "a" 1, "ä \"b" 1 | - | "fine" ""
turn 2 110
entry "a" 2 by 0 at 110: ack normal quiet -> Down HARD 1 | - | - | -
entry "ä \"b" 2 by 0 at 110: result 0 -> Up HARD 1 | - | - | "log 2" ""
order 1 "a" "x" "log 2"
LINES
cat >"$scratch/second.log" <<'LINES'
log 2
turn 1 120
entry "a" 3 by 0 at 120: result 0 -> Up HARD 1 | - | "a!m" Recovery Sent "u" | "fine" ""
LINES
head -n 5 "$scratch/first.log" >"$scratch/early.log"
cat "$scratch/first.log" "$scratch/second.log" >"$scratch/both.log"
# What a state file has: each name with the numbers and moments of its entries.
has() {
    python3 -c '
import json, sys
for one in json.load(sys.stdin)["checkables"]:
    print(one["name"] + ":", *(line.split(" by ")[0].split(" ")[-1] + "@" + line.split(" at ")[1].split(":")[0] for line in one["entries"]), end="; ")
print()'
}
state() { bin/state "$@" | has; }
printf 'turn 1 1\nentry "ä" 1 by 0 at 1: passive 0 -> Up HARD 1 | - | - | "\\"" "\\\\"\n' >"$scratch/one"
same "state, its text" '{"checkables":[{"entries":["entry \"ä\" 1 by 0 at 1: passive 0 -> Up HARD 1 | - | - | \"\\\"\" \"\\\\\""],"name":"ä"}],"version":1}' "$(bin/state "$scratch/one")"
same "state, of a log" 'a: 1@100 2@110; ä "b: 1@100 2@110; a!s: 1@100; ' "$(state "$scratch/first.log")"
same "state, of a log that another daemon goes on with" 'a: 1@100 2@110 3@120; ä "b: 1@100 2@110; a!s: 1@100; ' "$(state "$scratch/both.log")"
bin/state "$scratch/both.log" >"$scratch/whole"
bin/state "$scratch/first.log" >"$scratch/state"
same "state, of a state file and the log since then" "$(cat "$scratch/whole")" "$(bin/state "$scratch/state" "$scratch/second.log")"
same "state, of a state file and a log that begins before it" "$(cat "$scratch/whole")" "$(bin/state "$scratch/state" "$scratch/both.log")"
same "state, of a state file in the middle of a log" "$(cat "$scratch/whole")" "$(bin/state "$scratch/early.log" >"$scratch/early"; bin/state "$scratch/early" "$scratch/both.log")"
same "state, of a state file alone" "$(cat "$scratch/whole")" "$(bin/state "$scratch/whole")"
gzip -c "$scratch/first.log" >"$scratch/log.2.gz"
same "state, of rotated and packed logs" "$(cat "$scratch/whole")" "$(bin/state "$scratch/log.2.gz" "$scratch/second.log")"
# A log that a killed daemon left, at each of its bytes, and another one that began its log after it: what is lost is of the turn that
# was being written.
lost=$(python3 - "$scratch" <<'PYTHON'
import json, subprocess, sys
room = sys.argv[1]
with open(f"{room}/first.log", "rb") as file:
    log = file.read()
with open(f"{room}/second.log", "rb") as file:
    second = file.read().replace(b'"a" 3', b'"c" 1')

def entries(*texts):
    for at, text in enumerate(texts):
        with open(f"{room}/cut.{at}", "wb") as file:
            file.write(text)
    ran = subprocess.run(["bin/state", *(f"{room}/cut.{at}" for at in range(len(texts)))], stdout=subprocess.PIPE, stderr=subprocess.STDOUT)
    return {one["name"]: one["entries"] for one in json.loads(ran.stdout)["checkables"]} if ran.returncode == 0 else {}

turn_two, wrong = log.index(b"turn 2 "), 0
before, behind = entries(log[:turn_two]), entries(log)
for at in range(turn_two, len(log) + 1, 3):
    got = entries(log[:at])
    wrong += got not in (before, behind) and not (log[at - 1 : at] == b"\n" and all(behind[name][: len(of)] == of for name, of in got.items()))
    again = entries(log[:at] + second)
    wrong += {name: of for name, of in again.items() if name != "c"} != got or len(again.get("c", [])) != 1
print(wrong)
PYTHON
)
same "state, of a log that was cut at any byte" 0 "$lost"
# A daemon that began anew, one that went on from earlier entries, entries that are missing, and no log of version 2.
printf 'log 2\nturn 1 200\nentry "a" 1 by 0 at 200: result 0 -> Up HARD 1 | - | - | "fine" ""\n' >"$scratch/anew.log"
same "state, of a daemon that began anew" "a: 1@200; " "$(state "$scratch/both.log" "$scratch/anew.log")"
same "state, of a state file and a daemon that began anew" "a: 1@200; " "$(state "$scratch/whole" "$scratch/anew.log")"
printf 'log 2\nturn 1 200\nentry "c" 1 by 0 at 200: result 0 -> Up HARD 1 | - | - | "fine" ""\n' >"$scratch/new.log"
same "state, of a host that is new" 'a: 1@100 2@110; ä "b: 1@100 2@110; a!s: 1@100; c: 1@200; ' "$(state "$scratch/first.log" "$scratch/new.log")"
printf 'log 2\nturn 1 200\nentry "a" 2 by 0 at 200: unack void -> Up HARD 1 | - | - | -\n' >"$scratch/earlier.log"
same "state, of a daemon that went on from earlier entries" 'a: 1@100 2@200; ä "b: 1@100 2@110; a!s: 1@100; ' "$(state "$scratch/both.log" "$scratch/earlier.log")"
same "state, of entries that are missing" 'ä "b: 1@100 2@110; a!s: 1@100; state: entries are missing: of "a" comes number 3 after 1 entries' \
    "$(bin/state "$scratch/early.log" "$scratch/first.log" "$scratch/second.log" >/dev/null && sed '/"a" 2/d' "$scratch/both.log" >"$scratch/gap.log"; state "$scratch/gap.log" 2>"$scratch/errors" | tr -d '\n'; cat "$scratch/errors")"
bin/state "$scratch/gap.log" >/dev/null 2>&1
same "state's status, of entries that are missing" 1 $?
same "state, of entries that are missing, and a daemon that began anew with them" 'ä "b: 1@100 2@110; a!s: 1@100; a: 1@200; ' \
    "$(bin/state "$scratch/gap.log" >"$scratch/gap" 2>/dev/null; state "$scratch/gap" "$scratch/anew.log")"
same "state, of the end of an earlier run" "$(bin/state "$scratch/anew.log")" "$(bin/state "$scratch/anew.log" >"$scratch/anew"; tail -n 1 "$scratch/both.log" | cat - "$scratch/anew.log" >"$scratch/tail.log"; bin/state "$scratch/anew" "$scratch/tail.log")"
bin/state bench/logs/one.log >/dev/null 2>&1
same "state's status, of a log of version 1" 2 $?
bin/state "$scratch/none" 2>/dev/null
same "state's status, without a log" 2 $?
head -c 100 "$scratch/whole" >"$scratch/half"
bin/state "$scratch/half" >/dev/null 2>&1
same "state's status, of half a state file" 2 $?
same "state, of an empty log" '{"checkables":[],"version":1}' "$(: >"$scratch/empty"; bin/state "$scratch/empty")"
# What a site has no more is left out.
printf '%s\n' 'Host "a" {}' 'Service "a!s" {}' 'User "v" {}' 'Notification "a!m" {}' >"$scratch/site"
same "state, what the site has no more" 'a: 1@100 2@110 3@120; a!s: 1@100; ' "$(state --site "$scratch/site" "$scratch/both.log")"
same "state, users and sights that the site has no more" '- | "a!m" Problem Sent "v"; "a" 1 | -; - | "a!m" Recovery Sent' \
    "$(bin/state --site "$scratch/site" "$scratch/both.log" | python3 -c '
import json, sys
of = {one["name"]: one["entries"] for one in json.load(sys.stdin)["checkables"]}
print(*(" | ".join(line.split(" | ")[1:3]) for line in (of["a"][0], of["a!s"][0], of["a"][2])), sep="; ")')"
grep -v Notification "$scratch/site" >"$scratch/quiet"
same "state, notifications that the site has no more" 3 "$(bin/state --site "$scratch/quiet" "$scratch/both.log" | grep -o '| - | - |' | wc -l)"
printf 'log 2\nturn 1 100\nentry "a" 1 by 0 at 100: tick -> Down HARD 1 | - | "a!m" Problem Host "b", "a!m" Problem Dependency "a!d", "a!m" Problem Host "a", "a!m" Problem Downtime 4, "x | \\"" Problem Sent | -\n' >"$scratch/causes.log"
same "state, causes that the site has no more" '- | "a!m" Problem Host "a", "a!m" Problem Downtime 4 | -' \
    "$(bin/state --site "$scratch/site" "$scratch/causes.log" | python3 -c 'import json, sys; print(json.load(sys.stdin)["checkables"][0]["entries"][0].split(" | ", 1)[1])')"
printf 'icinga2.conf:1:8: Syntax\n' >"$scratch/faulty"
bin/state --site "$scratch/faulty" "$scratch/both.log" >/dev/null 2>&1
same "state's status, of a listing that is none" 2 $?

# A diagnostic gets its source line, a mark, a meaning and where to read on; every other line is passed on.
printf 'object Host "a" {\n  vars.x = 1\n  adress = "192.0.2.1"\n}\n' >"$scratch/r"
explained=$(printf '%s/r:1:8: Syntax\nok\n' "$scratch" | bin/explain)
same "explain, the source line and its mark" '    object Host "a" {|           ^' "$(printf '%s\n' "$explained" | sed -n '2,3p' | paste -sd '|')"
same "explain, other lines, and how many faults there are" 'ok|1 fault in 1 file' "$(printf '%s\n' "$explained" | tail -n 2 | paste -sd '|')"
printf '%s/r:1:8: Syntax\n' "$scratch" | bin/explain >/dev/null
same "explain's status, with a diagnostic" 1 $?
same "explain, without a diagnostic" "ok 0" "$(printf 'ok\n' | bin/explain | tr '\n' ' '; echo "${PIPESTATUS[1]}")"
same "explain, the line of the attribute" '    line 3: adress = "192.0.2.1"' "$(printf '%s/r:1:1: UnknownAttr "adress"\n' "$scratch" | bin/explain | sed -n 4p)"
same "explain, an attribute that isn't found" 0 "$(printf '%s/r:1:1: AttrType "notes"\n' "$scratch" | bin/explain | grep -c 'line [0-9]')"
same "explain, a file that isn't there" 3 "$(printf 'none:1:1: AttrType "notes"\n' | bin/explain | head -n -1 | wc -l)"
# Each kind of the program has a sentence.
kinds=$(sed -n '/^pub enum DiagKind/,/^}/s/^    \([A-Z][A-Za-z]*\),$/\1/p' crates/site_base/src/diag_kind.rt)
same "explain, each kind" 0 "$(for kind in $kinds; do printf 'none:1:1: %s\n' "$kind" | bin/explain | grep -q See || echo "$kind"; done | wc -l)"

# The completion of words.
completed() { # WORD .., of which the last is completed
    (
        # shellcheck source=packaging/icinga_site.bash
        . packaging/icinga_site.bash
        COMP_WORDS=(icinga_site "$@")
        # shellcheck disable=SC2034
        COMP_CWORD=$#
        _icinga_site
        echo "${COMPREPLY[*]}"
    )
}
same "completion, the first word" "check" "$(completed ch)"
same "completion, a file" "README.md" "$(completed check READ)"
same "completion, the version of the log" "1 2" "$(completed replay r s --log '')"
same "completion, behind the version" "replay resume" "$(completed --log 2 r)"
same "completion, options behind the words" "--log --workers --recur --quiet" "$(completed daemon r --)"
same "completion, --log once" "--workers --recur --quiet" "$(completed --log 2 daemon r --)"
same "completion, --workers once" "--log --recur --quiet" "$(completed --workers 2 replay r s --)"
same "completion, --recur once" "--log --workers --quiet" "$(completed replay r s --recur --)"
same "completion, behind --recur, which has no value" "replay" "$(completed --recur r)"
same "completion, words of a log behind --log" "replay daemon resume --workers --recur --quiet" "$(completed --log 2 '')"
same "completion, words of a log behind --recur" "replay daemon --log --workers --quiet" "$(completed --recur '')"
same "completion, no log of a check, and no downtimes" "--workers --quiet" "$(completed check r --)"
same "completion, a query" "query" "$(completed q)"
same "completion, the files of a query" "README.md README.md README.md" "$({ completed query READ; completed query r READ; completed query r s READ; } | paste -sd ' ')"
same "completion, behind the files of a query" "--workers --quiet" "$(completed query r s q --)"
same "completion, no query behind --log" "" "$(completed --log 1 q)"
same "completion, a query behind --workers" "query" "$(completed --workers 2 q)"
same "completion, the state file of a daemon" "README.md" "$(completed daemon r READ)"
same "completion, behind the state file of a daemon" "--log --workers --recur --quiet" "$(completed daemon r t --)"
same "completion, keeping" "keep" "$(completed ke)"
same "completion, no keeping behind --log" "" "$(completed --log 1 ke)"
same "completion, the files of keeping" "README.md README.md" "$({ completed keep READ; completed keep r READ; } | paste -sd ' ')"
same "completion, behind the files of keeping" "--workers --quiet" "$(completed keep r s --)"
same "completion, auditing" "audit" "$(completed au)"
same "completion, no auditing behind --log" "" "$(completed --log 1 au)"
same "completion, the files of auditing" "README.md README.md" "$({ completed audit READ; completed audit r READ; } | paste -sd ' ')"
same "completion, behind the files of auditing" "--workers --quiet" "$(completed audit r l --)"
same "completion, going on" "resume" "$(completed res)"
same "completion, going on behind --log" "resume" "$(completed --log 1 res)"
same "completion, no going on behind --recur" "" "$(completed --recur res)"
same "completion, the files of going on" "README.md README.md README.md" "$({ completed resume READ; completed resume r READ; completed resume r t READ; } | paste -sd ' ')"
same "completion, behind the files of going on" "--log --workers --quiet" "$(completed resume r t s --)"
same "completion, workers before the words" "check" "$(completed --workers 4 c)"

echo "$tried tried, $failed not as they should be"
[ "$failed" = 0 ]
