#!/usr/bin/env bash
# Puts the program of these sources into release/, with its checksum and that of the sources. It is the program that the gate builds:
# what the gate kept is taken, in a minute or two, and what it didn't is proved first. To be run last, before a change of the program is handed in.
set -euo pipefail
# shellcheck source=bin/sources.sh
. "$(dirname "$(readlink -f "${BASH_SOURCE[0]}")")/../bin/sources.sh"

sum=$(sources_sum)
mkdir -p "$top/release"
"$top/bin/prove" "$top/release/icinga_site"
if [ "$(sources_sum)" != "$sum" ]; then
    echo "bench/release.sh: the sources changed meanwhile: run it again" >&2
    exit 1
fi
(cd "$top/release" && sha256sum icinga_site >SHA256SUMS)
echo "$sum" >"$top/release/SOURCES"
echo "release/icinga_site: $(stat -c %s "$top/release/icinga_site") bytes, of the sources $sum"
