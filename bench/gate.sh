#!/usr/bin/env bash
# Runs the gate and tells what it cost: processor seconds by crate for libraries, programs, tests and must-fail edits, what they come to on
# a slow machine, and the wall time. The table goes to standard error, so that the gate's own last line stays the last of standard output;
# the status is the gate's.
#
# usage: bench/gate.sh [--figures FILE] [NAME..]      names are passed on, as crates'; with FILE, the figures of this run are added to those in
#                                                     it, or replace them, and the table is of all in it
#        bench/gate.sh --table FILE                   runs nothing: the table of the figures in FILE, lines `CRATE KIND SECONDS`
#
# Only provers that this very run started are counted, so other work beside it does no harm but to the wall time. A run over a machine that kept
# proofs tells only what was proved anew. How slow a machine is, is told by the library wildcards, which takes 37 seconds on the slow one.
set -u
cd "$(dirname "$(readlink -f "${BASH_SOURCE[0]}")")/.." || exit 1
exec python3 - "$@" <<'PYTHON'
import collections
import os
import subprocess
import sys
import time

TICKS = os.sysconf("SC_CLK_TCK")
SECONDS_BETWEEN_LOOKS = 2
KINDS = ["libraries", "programs", "tests", "edits"]
# The crate by which machines are compared, and its seconds on the slow one.
YARDSTICK, ITS_SECONDS = "wildcards", 37


def processes():
    """Of each process its parent, the moment it began, its ticks so far with those of its ended children, and its words."""
    found = {}
    for number in filter(str.isdigit, os.listdir("/proc")):
        try:
            with open(f"/proc/{number}/stat") as file:
                fields = file.read().rpartition(")")[2].split()
            with open(f"/proc/{number}/cmdline", "rb") as file:
                words = file.read().decode(errors="replace").split("\0")
        except OSError:
            continue
        ticks = sum(int(field) for field in fields[11:15])
        found[int(number)] = (int(fields[1]), fields[19], ticks, words)
    return found


def is_below(number, root, all_of_them):
    while number in all_of_them and number != root:
        number = all_of_them[number][0]
    return number == root


def crate_and_kind(words):
    """What a prover is proving, or None of any other process."""
    if os.path.basename(words[0]) != "rattle" or "--crate-name" not in words:
        return None
    crate = words[words.index("--crate-name") + 1]
    if "--test" in words:
        return crate, "tests"
    # (what is checked for an edit is not built, and a program is checked into a file, from which it is built)
    if words[1] == "check" and "-o" not in words:
        return crate, "edits"
    return crate, "programs" if "src/main.rt" in words else "libraries"


def first_prover(number, all_of_them):
    """The prover that a prover was made by, if it is a worker of one, and else itself."""
    what = crate_and_kind(all_of_them[number][3])
    while True:
        parent = all_of_them[number][0]
        if parent not in all_of_them or crate_and_kind(all_of_them[parent][3]) != what:
            return number
        number = parent


def measure(run):
    spent = {}
    while run.poll() is None:
        now = processes()
        # (a prover's own ticks have those of the workers that ended: those that still run are added)
        looked = collections.Counter()
        for number, (_, _, ticks, words) in now.items():
            if crate_and_kind(words) and is_below(number, run.pid, now):
                looked[first_prover(number, now)] += ticks
        for number, ticks in looked.items():
            _, began, _, words = now[number]
            before = spent.get((number, began), (None, 0))[1]
            spent[number, began] = (crate_and_kind(words), max(before, ticks / TICKS))
        time.sleep(SECONDS_BETWEEN_LOOKS)
    table = collections.defaultdict(collections.Counter)
    for (crate, kind), seconds in spent.values():
        table[crate][kind] += seconds
    return table


def read_figures(name, table):
    """Adds the figures of a file to a table, if it has none of their crate and kind."""
    with open(name) as file:
        for crate, kind, seconds in map(str.split, file):
            if kind not in KINDS:
                sys.exit(f"bench/gate.sh: {name}: {kind} is none of {', '.join(KINDS)}")
            table[crate].setdefault(kind, float(seconds))


def write_figures(name, table):
    with open(name, "w") as file:
        for crate, seconds in sorted(table.items()):
            for kind in filter(seconds.get, KINDS):
                print(f"{crate} {kind} {seconds[kind]:.1f}", file=file)


def row(name, seconds):
    cells = "".join(f"{seconds[kind]:10.0f}" for kind in KINDS)
    return f"{name:20}{cells}{sum(seconds.values()):10.0f}"


def tell(table):
    print(f"{'processor seconds':20}" + "".join(f"{kind:>10}" for kind in [*KINDS, "all"]), file=sys.stderr)
    for crate in sorted(table, key=lambda crate: -sum(table[crate].values())):
        print(row(crate, table[crate]), file=sys.stderr)
    whole = sum(table.values(), collections.Counter())
    print(row("all", whole), file=sys.stderr)
    here = table[YARDSTICK]["libraries"]
    if not here:
        print(f"{YARDSTICK} wasn't proved, so nothing tells how fast this machine is", file=sys.stderr)
        return
    slow = collections.Counter({kind: seconds * ITS_SECONDS / here for kind, seconds in whole.items()})
    print(row("on the slow machine", slow), file=sys.stderr)
    print(f"{YARDSTICK} took {here:.0f} s here, and takes {ITS_SECONDS} there", file=sys.stderr)


words = sys.argv[1:]
if words[:1] == ["--table"]:
    table = collections.defaultdict(collections.Counter)
    for name in words[1:]:
        read_figures(name, table)
    tell(table)
    sys.exit(0)
figures = None
if words[:1] == ["--figures"]:
    figures, words = words[1], words[2:]
began = time.monotonic()
run = subprocess.Popen(["rt", "ci", *words])
table = measure(run)
if figures:
    if os.path.exists(figures):
        read_figures(figures, table)
    write_figures(figures, table)
tell(table)
print(f"wall time {time.monotonic() - began:.0f} s, {os.cpu_count()} processors", file=sys.stderr)
sys.exit(run.returncode)
PYTHON
