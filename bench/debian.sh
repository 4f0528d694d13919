#!/usr/bin/env bash
# Runs the site of Debian's package icinga2-common through Icinga 2 and through icinga_site, side by side for two minutes, and shows the
# state of each host and service in both. Outside the gate; it needs the packages icinga2-bin, icinga2-common and
# monitoring-plugins, and root, since Icinga 2 changes to its own user.
#
# usage: bench/debian.sh [--program FILE] [SECONDS]
#
# It ends with 1 if a state differs.
set -u
cd "$(dirname "${BASH_SOURCE[0]}")/.." || exit 1
program=$PWD/bin/icinga_site
if [ "${1-}" = --program ]; then
    program=$(readlink -f "$2")
    shift 2
fi
seconds=${1:-120}
room=$(mktemp -d)
chmod 777 "$room"
cat >"$room/icinga2.conf" <<CONF
include "/etc/icinga2/icinga2.conf"
object StatusDataWriter "states" {
  status_path = "$room/status.dat"
  objects_path = "$room/objects.cache"
  update_interval = 5s
}
CONF
"$program" check examples/debian/icinga2.conf || exit 1
mkdir -p /run/icinga2
chown nagios:nagios /run/icinga2
DAEMON=$(command -v icinga2)
"$DAEMON" daemon -D NodeName=localhost -c "$room/icinga2.conf" >"$room/icinga2.log" 2>&1 &
icinga2=$!
(sleep "$seconds") | "$program" daemon examples/debian/icinga2.conf --log 2 >"$room/log" 2>"$room/errors"
kill "$icinga2"
wait "$icinga2" 2>/dev/null
python3 - "$room/status.dat" "$room/log" "$PWD/bin/now" <<'PYTHON'
import json
import re
import subprocess
import sys

HOST, SERVICE = ["Up", "Down", "Down"], ["OK", "Warning", "Critical", "Unknown"]
status, log, now = sys.argv[1:]
theirs = {}
with open(status, encoding="utf-8") as file:
    for kind, body in re.findall(r"^(hoststatus|servicestatus) \{\n(.*?)^\t\}", file.read(), re.M | re.S):
        fields = dict(line.strip().split("=", 1) for line in body.splitlines() if "=" in line)
        if kind == "hoststatus":
            theirs[fields["host_name"]] = (HOST[int(fields["current_state"])], fields["plugin_output"])
        else:
            theirs[f'{fields["host_name"]}!{fields["service_description"]}'] = (SERVICE[int(fields["current_state"])], fields["plugin_output"])
shown = subprocess.run([sys.executable, now, "--all", "--json", log], stdout=subprocess.PIPE, text=True, check=False).stdout
ours = {it["name"]: (it["state"], it["output"] or "") for it in json.loads(shown)["problems"]}
differ = 0
for name in sorted(theirs.keys() | ours.keys()):
    one, other = theirs.get(name, ("-", "")), ours.get(name, ("-", ""))
    mark = " " if one[0] == other[0] else "*"
    differ += mark == "*"
    print(f"{mark} {name:24} Icinga 2 {one[0]:9} {one[1][:40]:42} icinga_site {other[0]:9} {other[1][:40]}")
print(f"{differ} of {len(theirs | ours)} differ")
sys.exit(1 if differ else 0)
PYTHON
status=$?
rm -rf "$room"
exit $status
