#!/usr/bin/env bash
# Checks a site of 5,000 to 20,000 hosts in a tree, in which each has two or three children and a service, on one core, with and without
# its dependencies; and replays 250,000 to 1,000,000 results of a host with three hosts above it. Prints seconds of the processor, the least
# of three runs. Wanted: less than 2.3 times as long for twice as many. An argument is a built icinga_site to take.
set -eu
top=$(cd "$(dirname "$(readlink -f "${BASH_SOURCE[0]}")")/.." && pwd)
program=${1:-$top/bin/icinga_site}
work=$(mktemp -d)
trap 'rm -rf "$work"' EXIT

# site HOSTS DEPENDENCIES
site() {
    awk -v hosts="$1" -v depends="$2" 'BEGIN {
        print "object CheckCommand \"c\" { command = \"x\" }; object NotificationCommand \"n\" { command = \"x\" }; object User \"u\" { }"
        print "for (i in range(" hosts ")) { object Host \"h\" + i { check_command = \"c\"; enable_active_checks = false } }"
        print "apply Service \"s\" { check_command = \"c\"; enable_active_checks = false; assign where true }"
        print "object Notification \"m\" { host_name = \"h" hosts - 1 "\"; command = \"n\"; users = [ \"u\" ] }"
        for (child = 1; child < hosts && depends; child++)
            print "object Dependency \"d\" { child_host_name = \"h" child "\"; parent_host_name = \"h" int((child - 1) * 2 / 5) "\" }"
    }'
}

# seconds WORDS: of a run, the least of three
seconds() {
    for _ in 1 2 3; do
        /usr/bin/time -f '%U %S' -o "$work/time" taskset -c 0 "$program" "$@" >"$work/told"
        awk '{ print $1 + $2 }' "$work/time"
    done | sort -n | head -1
}

for hosts in 5000 10000 20000; do
    site "$hosts" 0 >"$work/apart"
    site "$hosts" 1 >"$work/tree"
    awk -v n="$hosts" -v apart="$(seconds check "$work/apart")" -v tree="$(seconds check "$work/tree")" \
        'BEGIN { printf "%d hosts with a service each: %.2f s, %.2f with a dependency each\n", n, apart, tree }'
done

site 9 1 >"$work/tree"
for calls in 250000 500000 1000000; do
    awk -v count="$calls" 'BEGIN { for (i = 1; i <= count; i++) printf "turn %d\nline \"[1] PROCESS_HOST_CHECK_RESULT;h8;1;x\"\n", 10 * i }' >"$work/script"
    awk -v n="$calls" -v s="$(seconds replay "$work/tree" "$work/script")" 'BEGIN { printf "%d results with three hosts above: %.2f s\n", n, s }'
done
