#!/usr/bin/env python3
"""Cuts the scripts of program_cases' rows at each of their turns, and looks whether the two parts give the log of the whole.

usage: bench/resumes.py [--program FILE]

The first part is replayed and kept, so that there are two state files of it: that which bin/state makes of the log, and that of `keep`.
The second part goes on after each: both logs together have to be the log of the whole script, but for the numbers of turns. Passed over are scripts that bin/rows doesn't run or that give no log, those
of which a check is ordered, since a run that goes on orders all that is due, and those whose moments fall, since the moments of turns without
entries aren't kept. Then each byte of a small state file is changed, which has to give BadState or a log. Outside the gate; it takes a
few minutes. Ends with 1 if something differs.
"""

import concurrent.futures
import importlib.machinery
import importlib.util
import os
import random
import re
import subprocess
import sys
import tempfile

TOP = os.path.dirname(os.path.dirname(os.path.realpath(__file__)))
STATE = """{"checkables":[{"entries":[],"name":"h"},{"entries":["entry \\"h!s\\" 1 by 0 at 10: passive 2 -> Critical SOFT 1 | \\"h\\" 0 | - | \\"x\\" \\"\\"",\
"entry \\"h!s\\" 2 by 0 at 11: down 20 30 flexible 5 -> Critical SOFT 1 | \\"h\\" 0 | \\"h!s!m\\" Problem Sent \\"u\\" | -"],"name":"h!s"}],"version":1}
"""
SITE = """object CheckCommand "c" { command = "x" }
object NotificationCommand "n" { command = "x" }
object User "u" { }
object Host "h" { check_command = "c"; enable_active_checks = false }
object Service "s" { check_command = "c"; host_name = "h"; enable_active_checks = false }
object Notification "m" { host_name = "h"; service_name = "s"; command = "n"; users = [ "u" ] }
"""


def module(name):
    """A tool of bin/ as a module."""
    loader = importlib.machinery.SourceFileLoader(name, f"{TOP}/bin/{name}")
    made = importlib.util.module_from_spec(importlib.util.spec_from_loader(name, loader))
    loader.exec_module(made)
    return made


def put(path, content):
    os.makedirs(os.path.dirname(path), exist_ok=True)
    with open(path, "wb") as file:
        file.write(content)


def given(program, room, *words):
    ran = subprocess.run([program, *words], cwd=room, stdin=subprocess.DEVNULL, stdout=subprocess.PIPE, stderr=subprocess.DEVNULL)
    return ran.returncode, ran.stdout


def unnumbered(log):
    """A log without the numbers of its turns."""
    return re.sub(rb"(?m)^turn \d+ ", b"turn ", log.replace(b"log 2\n", b""))


def state_of(room, log):
    put(f"{room}/log", log)
    return subprocess.run([f"{TOP}/bin/state", "log"], cwd=room, stdout=subprocess.PIPE, check=True).stdout


def gone_on(program, room, state):
    """The log of the second part after a state file."""
    put(f"{room}/state", state)
    return given(program, room, "resume", "r", "state", "second", "--log", "2")


def cut_row(program, table, row, files):
    """At how many turns a script was cut, and where that made a difference."""
    moments = [int(moment) for moment in re.findall(rb"(?m)^turn (\d+)$", files["s"])]
    if moments != sorted(moments):
        return 0, []
    with tempfile.TemporaryDirectory(prefix="resumes-") as room:
        for name, text in files.items():
            put(f"{room}/{name}", text)
        status, whole = given(program, room, "replay", "r", "s", "--log", "2")
        turns = [turn for turn in re.split(rb"(?m)^(?=turn )", files["s"]) if turn]
        cuts, differ = 0, []
        for at in range(len(turns) + 1) if status == 0 else ():
            put(f"{room}/first", b"".join(turns[:at]))
            put(f"{room}/second", b"".join(turns[at:]))
            _, before = given(program, room, "replay", "r", "first", "--log", "2")
            ends = [gone_on(program, room, state) for state in (state_of(room, before), given(program, room, "keep", "r", "first")[1])]
            if b"\norder " in whole + ends[0][1]:
                break
            cuts += 1
            for how, (status, after) in zip(("of the log", "that was kept"), ends):
                if status != 0 or unnumbered(before + after) != unnumbered(whole):
                    differ.append(f"{table}: {row.strip()}: cut before turn {at + 1}, by the state file {how}, with status {status}")
        return cuts, differ


def cut_rows(program, rows, workers):
    waiting = []
    for table in sorted(os.listdir(rows.DATA)):
        for row, _, named in rows.rows_of(table):
            case = rows.case_of(row, named, None) if row.startswith(("run replay r s ", "replay ")) else None
            if case is not None and {"r", "s"} <= set(case[1]):
                waiting.append(workers.submit(cut_row, program, table, row, case[1]))
    came = [it.result() for it in waiting]
    print(f"{sum(cuts > 0 for cuts, _ in came)} scripts cut at {sum(cuts for cuts, _ in came)} turns")
    return [line for _, differ in came for line in differ]


def change_bytes(program, workers):
    """What a changed state file gives that is neither BadState nor a log."""
    text, chance = STATE.encode(), random.Random(1)

    def changed(at):
        with tempfile.TemporaryDirectory(prefix="resumes-") as room:
            put(f"{room}/r", SITE.encode())
            put(f"{room}/s", b"turn 20\n")
            found = []
            for byte in {0, 34, 48, 57, 125, chance.randrange(256)} - {text[at]}:
                put(f"{room}/t", text[:at] + bytes([byte]) + text[at + 1 :])
                status, said = given(program, room, "resume", "r", "t", "s")
                if (status, said) != (1, b"t:1:1: BadState\n") and not (status == 0 and said.startswith(b"turn 1 ")):
                    found.append(f"the state file with {byte} at its byte {at} gives {status}: {said!r}")
            return found

    lines = [line for found in workers.map(changed, range(len(text))) for line in found]
    print(f"{len(text)} bytes of a state file changed")
    return lines


def main():
    words = sys.argv[1:]
    if words and (words[0] != "--program" or len(words) != 2):
        sys.exit(__doc__)
    rows = module("rows")
    program = os.path.abspath(words[1]) if words else rows.program()
    with concurrent.futures.ThreadPoolExecutor(os.cpu_count()) as workers:
        differ = cut_rows(program, rows, workers) + change_bytes(program, workers)
    print(*differ, f"{len(differ)} differ", sep="\n")
    sys.exit(1 if differ else 0)


if __name__ == "__main__":
    main()
