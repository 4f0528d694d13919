# Sourced by the scripts beside it: makes sites of so many hosts.
#
#   plain_site FOLDER HOSTS     a plain host has two services by apply rules and a notification for each of them
#   rich_site FOLDER HOSTS      a rich one has its attributes from templates and by a function, stands in a group, depends on a host in a tree,
#                               and has services whose rules ask a function
#
# The first file of each is icinga2.conf in the folder.

# the host objects, in files of a thousand each; the text of each begins with the line and ends with the body
hosts() {
    local folder=$1 count=$2 body=$3
    awk -v count="$count" -v folder="$folder" -v body="$body" 'BEGIN {
        for (h = 0; h < count; h++) {
            name = sprintf("%s/conf.d/hosts%04d.conf", folder, h / 1000)
            text = body
            gsub(/@HOST@/, h, text)
            gsub(/@PARENT@/, int((h - 1) / 8), text)
            gsub(/@RACK@/, h % 40, text)
            printf "object Host \"host-%d\" {\n%s}\n\n", h, text > name
        }
    }'
}

common='object CheckCommand "check" {
  command = [ "/usr/lib/nagios/plugins/check_ping", "-H", "$address$" ]
}
object NotificationCommand "mail" {
  command = [ "/usr/bin/mail" ]
}
object User "admin" {
  email = "admin@example.org"
}
'

plain_site() {
    mkdir -p "$1/conf.d"
    printf 'include "commands.conf"\ninclude_recursive "conf.d"\n' >"$1/icinga2.conf"
    printf '%s' "$common" >"$1/commands.conf"
    cat >>"$1/commands.conf" <<'CONF'
apply Service "ping" {
  check_command = "check"
  assign where host.address
}
apply Service "disk" {
  check_command = "check"
  check_interval = 5m
  assign where host.vars.os == "Linux"
}
apply Notification "mail" to Service {
  command = "mail"
  users = [ "admin" ]
  assign where true
}
CONF
    hosts "$1" "$2" '  check_command = "check"
  address = "192.0.2.1"
  vars.os = "Linux"
'
}

rich_site() {
    mkdir -p "$1/conf.d"
    printf 'include "commands.conf"\ninclude_recursive "conf.d"\n' >"$1/icinga2.conf"
    printf '%s' "$common" >"$1/commands.conf"
    cat >>"$1/commands.conf" <<'CONF'
function is_even(number) {
  return number % 2 == 0
}
template Host "generic" {
  check_command = "check"
  max_check_attempts = 3
  check_interval = 1m
  retry_interval = 30s
  vars.sla = "24x7"
}
template Service "generic" {
  check_command = "check"
  max_check_attempts = 5
  check_interval = 5m
}
object HostGroup "linux" {
  assign where host.vars.os == "Linux"
}
for (rack in range(40)) {
  object HostGroup "rack-" + rack use (rack) {
    display_name = "Rack " + rack
  }
}
apply Service "ping" {
  import "generic"
  vars.limit = 100 + host.vars.rack
  assign where host.address && is_even(host.vars.number)
  ignore where host.vars.quiet
}
apply Service "disk " for (disk => config in host.vars.disks) {
  import "generic"
  vars += config
  vars.disk = disk
}
apply Dependency "parent" to Host {
  parent_host_name = host.vars.parent
  disable_checks = true
  assign where host.vars.parent && host.vars.parent != host.name
}
apply Notification "mail" to Host {
  command = "mail"
  users = [ "admin" ]
  types = [ Problem, Recovery ]
  assign where host.vars.sla == "24x7"
}
CONF
    hosts "$1" "$2" '  import "generic"
  address = "192.0.2.1"
  groups = [ "rack-@RACK@" ]
  vars.os = "Linux"
  vars.number = @HOST@
  vars.rack = @RACK@
  vars.parent = "host-@PARENT@"
  vars.disks["/"] = { warning = 10, critical = 5 }
  vars.disks["/var"] = { warning = 20 }
'
}
