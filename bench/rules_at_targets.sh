#!/usr/bin/env bash
# What rules and groups cost where one of them is many: the built program's `check`, each site twice as large as the one before.
# `kept` and `passed`: one host with a dictionary of so many pairs, over which one rule goes; each pair makes a service, or none does.
# `nested`: the pairs hold dictionaries, and none makes a service. `groups`: so many groups, each of which takes 100 hosts.
# `rules`: so many rules that go to one host, beside 20,000 services of it and a rule that goes to these.
# Prints seconds of the processor, the least of three runs, and how many times as long twice as many took. Wanted: 20,000 pairs below 0.5 s
# kept and below 0.2 s passed, 4,000 groups below 0.5 s, less than 2.2 times as long for twice as many, and no more for the services
# beside 4,000 rules than without them.
# An argument is a built icinga_site to take.
set -eu
top=$(cd "$(dirname "$(readlink -f "${BASH_SOURCE[0]}")")/.." && pwd)
program=${1:-$("$top/bin/program")}
work=$(mktemp -d)
trap 'rm -rf "$work"' EXIT

command='object CheckCommand "c" {
  command = [ "true" ]
}
'

# pairs COUNT VALUE CONDITION: a host with a dictionary, and a rule over it
pairs() {
    printf '%sobject Host "x" {\n  check_command = "c"\n  for (i in range(%d)) {\n    vars.s["s" + (100000 + i)] = %s\n  }\n}\n' "$command" "$1" "$2"
    printf 'apply Service for (k => v in host.vars.s) {\n  check_command = "c"\n  %s\n}\n' "$3"
}

kept() { pairs "$1" i ""; }
passed() { pairs "$1" i "ignore where true"; }
nested() { pairs "$1" '{ number = i }' "ignore where v.number >= 0"; }

groups() {
    printf '%s' "$command"
    for host in $(seq 100); do
        printf 'object Host "h%d" {\n  check_command = "c"\n}\n' "$host"
    done
    for group in $(seq "$1"); do
        printf 'object HostGroup "g%d" {\n  assign where true\n}\n' "$group"
    done
}

rules() {
    printf '%sobject Host "x" {\n  check_command = "c"\n}\n' "$command"
    for service in $(seq 20000); do
        printf 'object Service "s%d" {\n  host_name = "x"\n  check_command = "c"\n}\n' "$service"
    done
    printf 'apply Notification "n" to Service {\n  command = "m"\n  users = [ "u" ]\n  assign where false\n}\n'
    printf 'object NotificationCommand "m" {\n  command = [ "true" ]\n}\nobject User "u" {\n}\n'
    for rule in $(seq "$1"); do
        printf 'apply Notification "n%d" to Host {\n  command = "m"\n  users = [ "u" ]\n  assign where false\n}\n' "$rule"
    done
}

# seconds SITE: those of the processor that a check takes, the least of three runs
seconds() {
    for _ in 1 2 3; do
        /usr/bin/time -f '%U %S' -o "$work/time" taskset -c 0 "$program" --quiet check "$1" >"$work/told"
        awk '{ print $1 + $2 }' "$work/time"
    done | sort -n | head -n 1
}

for kind in kept passed nested groups rules; do
    case $kind in
    kept | nested) sizes=(625 1250 2500 5000) ;;
    passed) sizes=(2500 5000 10000 20000) ;;
    groups) sizes=(1000 2000 4000 8000) ;;
    rules) sizes=(0 2000 4000 8000) ;;
    esac
    before=0
    for size in "${sizes[@]}"; do
        "$kind" "$size" >"$work/site.conf"
        now=$(seconds "$work/site.conf")
        awk -v k="$kind" -v n="$size" -v s="$now" -v b="$before" 'BEGIN {
            printf "%s, %d: %.2f s", k, n, s
            if (b > 0) printf ", %.2f times as long", s / b
            printf "\n"
        }'
        before=$now
    done
done
