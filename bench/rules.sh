#!/usr/bin/env bash
# Times rules and groups on one core: twenty rules, and then twenty groups, at so many hosts with thirty values each, where none takes,
# as the built program checks a site of them; the time of the same site without them is taken off. Wanted: 10,000 hosts below 0.3 s for
# rules and for groups, below 1 us for each rule or group at each host, and less than 2.3 times as long for twice as many hosts.
#
# Then an `apply Service for` over the elements of a dictionary of one host: none is kept, then each. Wanted: 20,000 elements below 0.2 s
# where none is kept and below 0.5 s where each is, and less than 2.3 times as long for twice as many.
set -eu
top=$(cd "$(dirname "$(readlink -f "${BASH_SOURCE[0]}")")/.." && pwd)
work=$(mktemp -d)
trap 'rm -rf "$work"' EXIT
"$top/bin/icinga_site" --version >/dev/null

# make_site FILE HOSTS HEAD: so many hosts, and twenty statements of this head, if it is one
make_site() {
    awk -v hosts="$2" -v head="$3" 'BEGIN {
        print "object CheckCommand \"c\" { command = \"true\" }"
        print "template Host \"t\" {\n  check_command = \"c\""
        for (v = 10; v < 39; v++)
            printf "  vars.a%d = \"a value\"\n", v
        print "  vars.os = \"Solaris\"\n}"
        for (h = 0; h < hosts; h++)
            printf "object Host \"host-%d\" { import \"t\" }\n", h
        for (x = 0; head != "" && x < 20; x++)
            printf "%s \"x%d\" { assign where host.vars.os == \"Linux\" }\n", head, x
    }' >"$1"
}

# run FILE: the seconds of a check, the least of five runs
run() {
    for _ in 1 2 3 4 5; do
        /usr/bin/time -f '%U %S' -o "$work/time" taskset -c 0 "$top/bin/icinga_site" check "$1" --quiet >"$work/told"
        awk '{ print $1 + $2 }' "$work/time"
    done | sort -n | head -1
}

for word in rules groups; do
    [ "$word" = rules ] && head='apply Service' || head='object HostGroup'
    for count in 2500 5000 10000 20000; do
        make_site "$work/with.conf" "$count" "$head"
        make_site "$work/without.conf" "$count" ''
        awk -v n="$count" -v w="$word" -v s="$(run "$work/with.conf")" -v e="$(run "$work/without.conf")" \
            'BEGIN { printf "20 %s at %d hosts: %.0f ms, %.2f us each\n", w, n, (s - e) * 1e3, (s - e) * 1e6 / n / 20 }'
    done
done

# make_elements FILE COUNT CONDITION: one host with so many elements, and a rule over them
make_elements() {
    awk -v count="$2" -v condition="$3" 'BEGIN {
        print "object CheckCommand \"c\" { command = \"true\" }"
        print "object Host \"h\" {\n  check_command = \"c\""
        for (n = 0; n < count; n++)
            printf "  vars.of[\"element %d\"] = { port = %d; kind = \"plain\" }\n", n, n
        print "}"
        if (condition != "")
            printf "apply Service \"s\" for (name => element in host.vars.of) { check_command = \"c\"; assign where %s }\n", condition
    }' >"$1"
}

for condition in 'element.kind == "other"' true; do
    [ "$condition" = true ] && word=each || word=none
    for count in 5000 10000 20000; do
        make_elements "$work/with.conf" "$count" "$condition"
        make_elements "$work/without.conf" "$count" ''
        awk -v n="$count" -v w="$word" -v s="$(run "$work/with.conf")" -v e="$(run "$work/without.conf")" \
            'BEGIN { printf "%d elements, %s kept: %.0f ms\n", n, w, (s - e) * 1e3 }'
    done
done
