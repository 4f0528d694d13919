#!/usr/bin/env bash
# Counts how much of Icinga 2's documentation runs as it is: of the pieces of configuration in it that have objects, templates or rules
# and stand by themselves in Icinga 2, how many `check` takes. Outside the gate; it needs the packages icinga2-bin, icinga2-common and
# icinga2-doc of Debian, and some minutes.
#
# usage: bench/migrating.sh [--program FILE] [--list]
#
# --list shows each piece that isn't taken, with what is said of it. It ends with 1 if Icinga 2 or its documentation isn't there.
set -u
cd "$(dirname "${BASH_SOURCE[0]}")/.." || exit 1
exec python3 - "$PWD" "$@" <<'PYTHON'
import collections
import concurrent.futures
import glob
import gzip
import os
import re
import shutil
import subprocess
import sys
import tempfile

top, *words = sys.argv[1:]
program = f"{top}/bin/icinga_site"
if words[:1] == ["--program"]:
    program, words = os.path.abspath(words[1]), words[2:]
pages = sorted(glob.glob("/usr/share/doc/icinga2/markdown/*.md*"))
if not pages or not shutil.which("icinga2"):
    sys.exit("bench/migrating.sh: icinga2, or its documentation in /usr/share/doc/icinga2/markdown, isn't there")

# What stands before a piece: the constants, and the check commands of each program.
THEIRS = 'include "/etc/icinga2/constants.conf"\ninclude <itl>\ninclude <plugins>\n'
OURS = f'const NodeName = "localhost"\nconst PluginDir = "/usr/lib/nagios/plugins"\nconst PluginContribDir = PluginDir\nconst ZoneName = NodeName\ninclude <itl>\ninclude "{top}/library/commands.conf"\n'
WORKERS = 2


def pieces_of(path):
    """The fenced blocks of a page that have an object, a template or a rule, each with the number of its line."""
    opened = gzip.open if path.endswith(".gz") else open
    block = None
    with opened(path, "rt", encoding="utf-8") as file:
        for number, line in enumerate(file, 1):
            if line.startswith("```"):
                if block is None:
                    block = (number + 1, [])
                else:
                    if any(re.match(r"(object|template|apply) ", it) for it in block[1]):
                        yield block[0], "".join(block[1])
                    block = None
            elif block is not None:
                block[1].append(line)


def run(command, text, name, room):
    with open(f"{room}/{name}", "w", encoding="utf-8") as file:
        file.write(text)
    done = subprocess.run([*command, name], cwd=room, stdin=subprocess.DEVNULL, stdout=subprocess.PIPE, stderr=subprocess.STDOUT, text=True)
    return done.returncode, done.stdout


def both(piece):
    """Whether Icinga 2 takes a piece, and what the program says of it."""
    page, number, text = piece
    room = tempfile.mkdtemp()
    os.chmod(room, 0o755)
    try:
        theirs, _ = run(["icinga2", "daemon", "-C", "-D", "NodeName=localhost", "-c"], THEIRS + text, "theirs.conf", room)
        if theirs != 0:
            return piece, False, None
        status, said = run([program, "check"], OURS + text, "ours.conf", room)
        return piece, True, None if status == 0 else said.strip()
    finally:
        shutil.rmtree(room, ignore_errors=True)


pieces = [(os.path.basename(page).split(".")[0], number, text) for page in pages for number, text in pieces_of(page)]
with concurrent.futures.ThreadPoolExecutor(WORKERS) as workers:
    results = list(workers.map(both, pieces))
alone = [(piece, said) for piece, stands, said in results if stands]
refused = [(piece, said) for piece, said in alone if said is not None]
kinds = collections.Counter(re.match(r"\S+: (\w+)|.*", said)[1] for _, said in refused)
if "--list" in words:
    for (page, number, text), said in refused:
        print(f"{page}:{number}", *(f"    {line}" for line in said.split("\n")), sep="\n")
print(f"{len(pieces)} pieces, {len(alone)} stand by themselves in Icinga 2, {len(alone) - len(refused)} of these are taken")
for kind, count in kinds.most_common():
    print(f"  {count} {kind}")
PYTHON
