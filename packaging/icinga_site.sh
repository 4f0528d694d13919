#!/bin/sh
# Runs icinga_site with these words, under the allocator mimalloc if that is installed: so it takes less time and memory. An
# LD_PRELOAD that is set stays as it is. Checks are started without the allocator, by the second variable.
#
# The signal SIGXFSZ is ignored: so a log that reaches a limit of file sizes is a write that fails, and the program ends with WriteFault.
#
# ICINGA_SITE_PROGRAM is the program, /usr/lib/icinga_site/icinga_site unless it is set.
program=${ICINGA_SITE_PROGRAM:-/usr/lib/icinga_site/icinga_site}
unset ICINGA_SITE_PROGRAM
trap '' XFSZ
if [ -z "${LD_PRELOAD-}" ]; then
    for library in /usr/lib/x86_64-linux-gnu/libmimalloc.so.2 /usr/lib64/libmimalloc.so.2 /usr/lib/libmimalloc.so.2; do
        if [ -r "$library" ]; then
            export LD_PRELOAD="$library" ICINGA_SITE_ALLOCATOR="$library"
            break
        fi
    done
fi
exec "$program" "$@"
