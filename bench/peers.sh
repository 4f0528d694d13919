#!/usr/bin/env bash
# Runs the same generated sites and results through Icinga 2, Nagios and icinga_site, each on one core, in one run:
#
#   plain     a commit of hosts with two services by apply rules and a notification for each of them: `icinga2 daemon -C`, and `check`
#   rich      a commit of hosts with templates, groups, dependencies, variables and services whose rules ask a function
#   results   so many passive results over 1,000 hosts with a service each, with dependencies and notifications: nagios4, and `replay`
#
# Prints seconds of the processor, the least of three runs for icinga_site and of one for the others, and how many times as fast icinga_site is.
# Then, by callgrind, the instructions that icinga_site takes for an object, a passive result, and an order with its report, which don't depend on
# the machine. Wanted: rich sites twenty times as fast as Icinga 2, results five times as fast as Nagios; below 55,000 instructions a rich object,
# 30,000 a plain one, 6,500 a passive result and 9,000 an order with its report. Outside the gate; it takes the packages icinga2-bin, nagios4-core
# and valgrind, and root, since both others change to users of their own.
#
# usage: bench/peers.sh [--program FILE] [--hosts N] [--results N] [SECTION ..]
#
# A section is plain, rich, results or instructions; without one all are run. Nagios is asked for no more than its decisions: contacts whom no
# state is told to, no log of results, no flapping and no status file while it runs; icinga_site writes its whole log.
set -eu
top=$(cd "$(dirname "$(readlink -f "${BASH_SOURCE[0]}")")/.." && pwd)
program= hosts=10000 results=750000
while [ $# -gt 0 ]; do
    case $1 in
    --program) program=$(readlink -f "$2") ;;
    --hosts) hosts=$2 ;;
    --results) results=$2 ;;
    *) break ;;
    esac
    shift 2
done
[ -n "$program" ] || program=$("$top/bin/program" </dev/null)
sections=${*:-plain rich results instructions}
work=$(mktemp -d)
chmod 755 "$work"
trap 'rm -rf "$work"' EXIT
# shellcheck source=bench/hosts.sh
. "$top/bench/hosts.sh"

# seconds WORD ..: those of the processor that a command takes on one core, with the programs that it starts
seconds() {
    local TIMEFORMAT='%3U %3S'
    { time taskset -c 0 "$@" >"$work/out" 2>"$work/said" </dev/null; } 2>"$work/time" || {
        tail -n 5 "$work/out" "$work/said" >&2
        return 1
    }
    awk '{ print $1 + $2 }' "$work/time"
}

# least WORD ..: the least of three such runs
least() {
    for _ in 1 2 3; do seconds "$@"; done | sort -n | head -n 1
}

# compared WHAT COUNT OURS PEER THEIRS: a row of the table
compared() {
    awk -v what="$1" -v count="$2" -v ours="$3" -v peer="$4" -v theirs="$5" 'BEGIN {
        printf "%s: icinga_site %.2f s, %.0f a second; %s %.2f s, %.0f a second; %.1f times as fast\n", what, ours, count / ours, peer, theirs, count / theirs, theirs / ours
    }'
}

# made: how many objects of a site Icinga 2 says that it made
made() {
    cat "$work/out" "$work/said" | sed -n '/IcingaApplication/d; s/.*Instantiated \([0-9]*\) .*/\1/p' | awk '{ all += $1 } END { print all }'
}

commit() {
    local kind=$1 site=$work/$1 objects ours theirs
    "${kind}_site" "$site" "$hosts"
    ours=$(least "$program" check "$site/icinga2.conf")
    objects=$(awk '/^ok/ { print $2 }' "$work/out")
    theirs=$(seconds icinga2 daemon -C -D NodeName=localhost -D ZoneName=localhost -c "$site/icinga2.conf")
    [ "$(made)" = "$objects" ] || {
        echo "$kind: Icinga 2 makes $(made) objects, and icinga_site $objects" >&2
        return 1
    }
    compared "$kind, $hosts hosts, $objects objects" "$objects" "$ours" "Icinga 2" "$theirs"
    rm -rf "$site"
}

# The site of the results, for icinga_site: services that depend on their host's service, hosts that depend on one above them, and a
# notification for each.
results_site() {
    cat >"$1" <<'CONF'
object CheckCommand "c" { command = [ "/bin/true" ] }
object NotificationCommand "n" { command = [ "/bin/true" ] }
object User "u" { }
for (i in range(1000)) {
  object Host "h" + i use (i) {
    check_command = "c"
    enable_active_checks = false
    max_check_attempts = 3
    vars.parent = "h" + (i - i % 10)
  }
}
apply Service "s" {
  check_command = "c"
  enable_active_checks = false
  max_check_attempts = 3
  assign where true
}
apply Dependency "up" to Host {
  parent_host_name = host.vars.parent
  assign where host.vars.parent != host.name
}
apply Notification "m" to Host {
  command = "n"
  users = [ "u" ]
  interval = 1h
  assign where true
}
apply Notification "m" to Service {
  command = "n"
  users = [ "u" ]
  interval = 1h
  assign where true
}
CONF
}

# The same for Nagios, in a folder.
nagios_site() {
    mkdir -p "$1/results"
    awk 'BEGIN {
        print "define timeperiod {\n  timeperiod_name always\n  alias always"
        split("sunday monday tuesday wednesday thursday friday saturday", days)
        for (d = 1; d <= 7; d++) print "  " days[d] " 00:00-24:00"
        print "}\ndefine command {\n  command_name c\n  command_line /bin/true\n}"
        print "define contact {\n  contact_name u\n  host_notifications_enabled 1\n  service_notifications_enabled 1\n  host_notification_period always\n  service_notification_period always\n  host_notification_options n\n  service_notification_options n\n  host_notification_commands c\n  service_notification_commands c\n}"
        both = "  check_command c\n  max_check_attempts 3\n  check_period always\n  active_checks_enabled 0\n  passive_checks_enabled 1\n  contacts u\n  notification_period always\n  notification_interval 60\n  notifications_enabled 1\n"
        for (h = 0; h < 1000; h++) {
            print "define host {\n  host_name h" h "\n" both "}"
            print "define service {\n  host_name h" h "\n  service_description s\n" both "}"
            if (h % 10) print "define hostdependency {\n  host_name h" h - h % 10 "\n  dependent_host_name h" h "\n  notification_failure_criteria d,u\n}"
        }
    }' >"$1/objects.cfg"
    cat >"$1/nagios.cfg" <<CFG
cfg_file=$1/objects.cfg
log_file=$1/log
object_cache_file=$1/cache
precached_object_file=$1/precached
status_file=$1/status
state_retention_file=$1/retention
command_file=$1/command
lock_file=$1/lock
temp_file=$1/temporary
temp_path=$1
check_result_path=$1/results
query_socket=$1/socket
nagios_user=nagios
nagios_group=nagios
check_external_commands=1
execute_service_checks=0
execute_host_checks=0
accept_passive_service_checks=1
accept_passive_host_checks=1
passive_host_checks_are_soft=1
enable_notifications=1
enable_event_handlers=0
enable_flap_detection=0
retain_state_information=0
status_update_interval=3600
check_for_updates=0
check_for_orphaned_services=0
check_for_orphaned_hosts=0
check_service_freshness=0
check_host_freshness=0
use_syslog=0
log_notifications=0
log_service_retries=0
log_host_retries=0
log_event_handlers=0
log_external_commands=0
log_passive_checks=0
log_initial_states=0
log_current_states=0
daemon_dumps_core=0
CFG
    chown -R nagios:nagios "$1"
}

# The results: a host's and a service's by turns, 1,000 a turn; of 21 of each six one after another are problems, of which the third is HARD.
lines() {
    awk -v results="$results" -v begin="$1" -v script="$2" 'BEGIN {
        for (n = 0; n < results; n++) {
            h = int(n / 2) % 1000
            bad = (int(n / 2000) + h) % 21 < 6
            line = n % 2 ? sprintf("PROCESS_SERVICE_CHECK_RESULT;h%d;s;%d;PING", h, bad ? 2 : 0) : sprintf("PROCESS_HOST_CHECK_RESULT;h%d;%d;PING", h, bad)
            if (script && n % 1000 == 0) printf "turn %d\n", begin + n / 1000
            if (script) printf "line \"[%d] %s\"\n", begin, line
            else printf "[%d] %s\n", begin, line
        }
    }'
}

# nagios FOLDER LINES: the seconds that Nagios takes to begin, to take the lines and to end
nagios() {
    rm -f "$1/command"
    {
        for _ in $(seq 600); do
            [ -p "$1/command" ] && break
            sleep 0.1
        done
        cat "$2" - <<<"[$(date +%s)] SHUTDOWN_PROGRAM" >"$1/command"
    } &
    seconds nagios4 "$1/nagios.cfg"
    wait
}

passive() {
    local entries ours idle theirs least_of
    results_site "$work/results.conf"
    lines 1764000000 1 >"$work/script"
    : >"$work/empty"
    idle=$(least "$program" replay "$work/results.conf" "$work/empty")
    ours=$(least "$program" replay "$work/results.conf" "$work/script")
    entries=$(grep -c '^entry ' "$work/out")
    nagios_site "$work/nagios"
    lines "$(date +%s)" "" >"$work/lines"
    least_of=$(nagios "$work/nagios" "$work/empty")
    theirs=$(nagios "$work/nagios" "$work/lines")
    compared "$results passive results, $entries entries" "$results" "$(awk "BEGIN { print $ours - $idle }")" Nagios "$(awk "BEGIN { print $theirs - $least_of }")"
}

# counted WORD ..: the instructions that the program takes for these words
counted() {
    valgrind --tool=callgrind --callgrind-out-file=/dev/null "$program" "$@" 2>&1 >"$work/out" </dev/null | sed -n 's/.*Collected : \([0-9]*\).*/\1/p'
}

# each WHAT, then of a lesser and a greater run the instructions and how many there are of what is counted
each() {
    awk -v what="$1" -v lesser="$2" -v few="$3" -v greater="$4" -v many="$5" 'BEGIN { printf "%s: %.0f instructions\n", what, (greater - lesser) / (many - few) }'
}

commit_instructions() {
    local count
    for kind in plain rich; do
        local figures=()
        for count in 500 1000; do
            "${kind}_site" "$work/$kind-$count" "$count"
            figures+=("$(counted check "$work/$kind-$count/icinga2.conf")" "$(awk '/^ok/ { print $2 }' "$work/out")")
        done
        each "an object of a $kind site" "${figures[@]}"
    done
}

run_instructions() {
    local figures=() count
    results_site "$work/results.conf"
    for count in 20000 40000; do
        results=$count lines 1764000000 1 >"$work/script"
        figures+=("$(counted replay "$work/results.conf" "$work/script")" "$(grep -c '^entry ' "$work/out")")
    done
    each "a passive result with its decisions" "${figures[@]}"
    figures=()
    cat >"$work/active.conf" <<'CONF'
const MaxConcurrentChecks = 2000
object CheckCommand "c" { command = [ "/bin/true" ] }
object Host "h" { check_command = "c"; enable_active_checks = false }
for (i in range(1000)) { object Service "s" + i { host_name = "h"; check_command = "c"; check_interval = 10 } }
CONF
    for count in 10 20; do
        awk -v turns="$count" 'BEGIN {
            for (t = 0; t < turns; t++) {
                printf "turn %d\nturn %d\n", 1000 + 20 * t, 1001 + 20 * t
                for (n = 1; n <= 1000; n++) printf "report %d 0 \"ok\"\n", t * 1000 + n
            }
        }' >"$work/script"
        figures+=("$(counted replay "$work/active.conf" "$work/script")" "$(grep -c '^order ' "$work/out")")
    done
    each "an order with its report" "${figures[@]}"
}

for section in $sections; do
    case $section in
    plain | rich) commit "$section" ;;
    results) passive ;;
    instructions)
        commit_instructions
        run_instructions
        ;;
    *)
        echo "no section $section" >&2
        exit 2
        ;;
    esac
done
