#!/bin/sh
# Mails a notification to its users: bin/on-sent LOG examples/mail.sh
#
# The addresses are those of the users' attribute `email`, as the listing of the site has them. LISTING is a file with the output of
# `icinga_site objects ROOT`; who has no address there gets the mail under the user's name, which `mail` knows as a local one.
set -u
listing=${LISTING:-/var/lib/icinga_site/objects}
subject="$SENT_KIND: $SENT_NAME is $SENT_STATE"
body="$SENT_NAME is $SENT_STATE ($SENT_TYPE) since the check of $SENT_TIME.

$SENT_OUTPUT

Notification: $SENT_NOTIFICATION"

status=0
printf '%s\n' "$SENT_USERS" | while IFS= read -r user; do
    [ -n "$user" ] || continue
    address=$(sed -n "s/^User \"$(printf '%s' "$user" | sed 's/[]\/$*.^[]/\\&/g')\" .*\"email\":\"\([^\"\\\\]*\)\".*/\1/p" "$listing" 2>/dev/null | head -n 1)
    printf '%s\n' "$body" | mail -s "$subject" -- "${address:-$user}" || status=1
    (exit $status)
done
