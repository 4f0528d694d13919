#!/usr/bin/env bash
# Tries the package of packaging/deb: it is installed, run, stopped, removed and purged over a copy of this machine that is thrown away.
# Outside the gate; it takes Debian 12, root and the right to mount.
#
# usage: bench/package.sh
#
# It says what isn't as it should be, and ends with 1 if anything is.
set -u
cd "$(dirname "${BASH_SOURCE[0]}")/.." || exit 1
if [ "${1-}" != inside ]; then
    exec unshare -m bash "bench/$(basename "${BASH_SOURCE[0]}")" inside
fi
room=$(mktemp -d)
mount -t tmpfs tmpfs "$room" && mkdir "$room/upper" "$room/work" "$room/all" || exit 1
mount -t overlay overlay -o "lowerdir=/,upperdir=$room/upper,workdir=$room/work" "$room/all" || exit 1
mount -t proc proc "$room/all/proc"
mount --bind /dev "$room/all/dev"
packaging/deb "$room/all/root" >/dev/null || exit 1
cat >"$room/all/root/site.conf" <<'CONF'
object CheckCommand "quick" {
  command = [ "/bin/sh", "-c", "sleep 2; echo fine" ]
}

object Host "h" {
  check_command = "quick"
}

object ScheduledDowntime "always" {
  host_name = "h"
  author = "me"
  comment = "tried"
  for (day in [ "monday", "tuesday", "wednesday", "thursday", "friday", "saturday", "sunday" ]) {
    ranges[day] = "00:00-24:00"
  }
}
CONF
cat >"$room/all/root/try.sh" <<'SCRIPT'
failed=0
holds() { # WHAT COMMAND ..
    what=$1
    shift
    "$@" >/root/out 2>&1 || { failed=1; echo "not as it should be: $what"; cat /root/out; }
}
holds "it is installed" dpkg -i /root/icinga-site_*.deb
holds "the program answers" icinga_site --version
holds "the user is there" getent passwd nagios
for tool in now on-sent state explain; do
    holds "icinga_site-$tool is there" "icinga_site-$tool" --help </dev/null
done
holds "the man page is there" man -w icinga_site
holds "the unit is right" sh -c '! systemd-analyze verify /usr/lib/systemd/system/icinga_site.service 2>&1 | grep icinga_site'
holds "the library is read" sh -c 'printf "const PluginDir = \"/usr/lib/nagios/plugins\"\ninclude <itl>\ninclude \"/usr/share/icinga_site/library/commands.conf\"\n" >/root/l.conf; icinga_site check /root/l.conf'
holds "the documents' paths are there" ls /usr/share/doc/icinga-site/docs/OPERATING.md /usr/share/doc/icinga-site/library/README.md
cp /root/site.conf /tmp/site.conf
mkdir -p /run/icinga_site /var/log/icinga_site /var/lib/icinga_site
chown nagios /run/icinga_site /var/log/icinga_site /var/lib/icinga_site
keep() { setpriv --reuid=nagios --clear-groups env ROOT=/tmp/site.conf /usr/lib/icinga_site/keep 2>/root/kept; }
keep
holds "without a log it begins anew" grep -q 'begins anew: there is no log yet' /root/kept
setpriv --reuid=nagios --clear-groups env ROOT=/tmp/site.conf /usr/lib/icinga_site/run 2>/root/errors &
daemon=$!
sleep 2
echo "[$(date +%s)] DISABLE_HOST_CHECK;h" >/run/icinga_site/command
holds "it is stopped" setpriv --reuid=nagios --clear-groups /usr/lib/icinga_site/stop "$daemon"
wait "$daemon"
holds "it ended well" [ $? = 0 ]
holds "downtimes recur" grep -q ': down [0-9]* [0-9]* fixed -> ' /var/log/icinga_site/log
holds "its log is whole" sh -c 'grep -q "result 0 -> Up HARD 1 .*fine" /var/log/icinga_site/log && grep -q "checks off" /var/log/icinga_site/log'
keep
holds "its state file is made" sh -c '[ -s /var/lib/icinga_site/state ] && ! [ -s /root/kept ]'
setpriv --reuid=nagios --clear-groups env ROOT=/tmp/site.conf /usr/lib/icinga_site/run 2>>/root/errors &
daemon=$!
sleep 2
holds "it is stopped again" setpriv --reuid=nagios --clear-groups /usr/lib/icinga_site/stop "$daemon"
wait "$daemon"
holds "it went on" sh -c '[ "$(grep -c "^entry .h. 1 by" /var/log/icinga_site/log)" = 1 ]'
printf 'object Hosst "h" { }\n' >/tmp/site.conf
keep
holds "a faulty configuration leaves the state file" [ -s /var/lib/icinga_site/state ]
holds "a faulty configuration ends with 1" sh -c 'ROOT=/tmp/site.conf /usr/lib/icinga_site/run; [ $? = 1 ]'
holds "logrotate takes its file" sh -c '! command -v logrotate >/dev/null || logrotate -d /etc/logrotate.d/icinga_site'
holds "it is removed" dpkg -r icinga-site
holds "nothing but its settings, its log and its state file is left" sh -c '[ "$(find /usr /etc /var /opt /lib -xdev -path "*icinga[_-]site*" -newer /root/site.conf -print 2>/dev/null | grep -v -e ^/root -e ^/var/lib/dpkg -e ^/run -e ^/work -e ^/tmp -e ^/var/log/icinga_site -e ^/var/lib/icinga_site -e ^/etc/logrotate.d/icinga_site$ | wc -l)" = 0 ]'
holds "it is purged" dpkg -P icinga-site
holds "nothing is left of it" sh -c '! ls /etc/logrotate.d/icinga_site /var/log/icinga_site /var/lib/icinga_site 2>/dev/null'
[ "$failed" = 0 ] && echo "the package is as it should be"
exit "$failed"
SCRIPT
chroot "$room/all" bash /root/try.sh
status=$?
umount "$room/all/dev" "$room/all/proc" "$room/all" "$room"
rmdir "$room"
exit $status
