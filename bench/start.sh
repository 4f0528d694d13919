#!/usr/bin/env bash
# Starts runs with the built program, on one core: the time that `replay` takes on a script without a line beyond the one that `check` takes.
# Hosts that depend on nothing and have a notification each, 25,000 to 100,000; and hosts in a chain, each of which depends on the one
# before it, 2,500 to 10,000, whose graph has so many ancestors that both columns grow fourfold. Before that, `check` of chains of 25,000 to 100,000
# beside as many hosts that all depend on the first. Wanted: 100,000 notifications and the cycles of a chain of 100,000 below 0.5 s and 1 s beyond
# the commit, and a chain of 10,000 below 300 MB. An argument is a built icinga_site to take.
set -eu
top=$(cd "$(dirname "$(readlink -f "${BASH_SOURCE[0]}")")/.." && pwd)
program=${1:-$top/bin/icinga_site}
work=$(mktemp -d)
trap 'rm -rf "$work"' EXIT
: >"$work/script"

# site HOSTS PARENT NOTES: hosts of which each after the first depends on the one that the expression of awk names, if it names one.
site() {
    rm -f "$work"/*.conf
    awk -v hosts="$1" -v folder="$work" '
        BEGIN {
            root = folder "/site.conf"
            print "object CheckCommand \"true\" { command = [ \"/bin/true\" ] }\nobject User \"u\" { }\nobject NotificationCommand \"mail\" { command = [ \"/bin/true\" ] }" >root
            for (host = 0; host < hosts; host++) {
                if (host % 20000 == 0) {
                    part = "part" host / 20000 ".conf"
                    print "include \"" part "\"" >root
                    part = folder "/" part
                }
                print "object Host \"h" host "\" { check_command = \"true\" }" >part
                parent = '"$2"'
                if (host > 0 && parent >= 0)
                    print "object Dependency \"d" host "\" { child_host_name = \"h" host "\"; parent_host_name = \"h" parent "\" }" >part
                if ('"$3"')
                    print "object Notification \"n" host "\" { host_name = \"h" host "\"; command = \"mail\"; users = [ \"u\" ] }" >part
            }
        }'
}

# timed WORD..: seconds of the processor, the least of three runs, and kilobytes at the peak.
timed() {
    for _ in 1 2 3; do
        /usr/bin/time -f '%U %S %M' -o "$work/time" taskset -c 0 "$program" "$@" >"$work/log"
        awk '{ printf "%.2f %d\n", $1 + $2, $3 }' "$work/time"
    done | sort -n | head -1
}

beyond() {
    awk -v name="$1" -v before="$2" -v after="$3" -v memory="$4" -v last="$5" 'BEGIN {
        printf "%s: %.2f s beyond %.2f s, %d MB", name, after - before, before, memory / 1024
        if (last > 0) printf ", %.2f times as long", (after - before) / last
        print ""
    }'
}

for hosts in 25000 50000 100000; do
    site "$hosts" 0 0
    read -r star _ < <(timed check "$work/site.conf")
    site "$hosts" 'host - 1' 0
    read -r chain memory < <(timed check "$work/site.conf")
    beyond "check, a chain of $hosts hosts" "$star" "$chain" "$memory" 0
done

last=0
for hosts in 25000 50000 100000; do
    site "$hosts" -1 1
    read -r check _ < <(timed check "$work/site.conf")
    read -r replay memory < <(timed replay "$work/site.conf" "$work/script")
    beyond "start, $hosts hosts with a notification each" "$check" "$replay" "$memory" "$last"
    last=$(awk -v before="$check" -v after="$replay" 'BEGIN { print after - before }')
done

last=0
for hosts in 2500 5000 10000; do
    site "$hosts" 'host - 1' 0
    read -r check _ < <(timed check "$work/site.conf")
    read -r replay memory < <(timed replay "$work/site.conf" "$work/script")
    beyond "start, a chain of $hosts hosts" "$check" "$replay" "$memory" "$last"
    last=$(awk -v before="$check" -v after="$replay" 'BEGIN { print after - before }')
done
