#!/usr/bin/env python3
"""Audits the logs of the rows of program_cases, and what becomes of them where they are changed.

usage: bench/audits.py [--program FILE] [--changed N]

Each log that a row's script gives with one worker has to be legal, in both versions. Of N of them (30 if not said), chosen so that
orders, ticks, downtimes, notifications and refusals occur, every line is dropped, doubled and exchanged with the next one, and each number is raised by one. What
`audit` has to say of that is worked out here: the turns that the log tells are written as a script, by the rules of docs/FORMATS.md alone, and replayed;
the first block that isn't the one of that replay, or that tells nothing, is the one that goes wrong. Outside the gate; it takes some minutes.
Ends with 1 if a verdict differs.
"""
import argparse
import concurrent.futures
import importlib.machinery
import importlib.util
import os
import re
import shutil
import subprocess
import sys
import tempfile

TOP = os.path.dirname(os.path.dirname(os.path.realpath(__file__)))
TEXT = rb'"(?:[^"\\]|\\.)*"'
ENTRY = re.compile(rb"entry (%s) (\d+) by (\d+) at \d+: (.*?) -> \w+ \w+ \d+ \| (-|%s \d+(?:, %s \d+)*) \| (.*)" % (TEXT, TEXT, TEXT), re.S)
SEEN = re.compile(rb"(%s) (\d+)" % TEXT)
OUTPUT = re.compile(rb".* \| (?:-|(%s) (%s))" % (TEXT, TEXT), re.S)
ORDER = re.compile(rb"order (\d+) (%s)(?: (missing) %s|(?: %s)*| )" % (TEXT, TEXT, TEXT))
REFUSED = {b"NotText": b"\xff", b"NoBracket": b"", b"BadMoment": b"[x] ", b"UnknownCommand": b"[0] X", b"FieldCount": b"[0] ENABLE_HOST_CHECK",
           b"UnknownCheckable": b"[0] ENABLE_HOST_CHECK;"}
SIGNS = {b"n": b"\n", b"t": b"\t", b"r": b"\r"}


class Untold(Exception):
    """A block that tells no turn."""


def rows_module():
    """bin/rows, as a module."""
    loader = importlib.machinery.SourceFileLoader("rows", f"{TOP}/bin/rows")
    made = importlib.util.module_from_spec(importlib.util.spec_from_loader("rows", loader))
    loader.exec_module(made)
    return made


def plain(text):
    """What a quoted string stands for."""
    return re.sub(rb"\\([0-7]{3}|.)", lambda it: bytes([int(it[1], 8)]) if len(it[1]) == 3 else SIGNS.get(it[1], it[1]), text[1:-1], flags=re.S)


def quoted(text):
    out = text.replace(b"\\", b"\\\\").replace(b'"', b'\\"').replace(b"\n", b"\\n").replace(b"\t", b"\\t").replace(b"\r", b"\\r")
    return b'"' + re.sub(rb"[\x00-\x1f\x7f]", lambda it: b"\\%03o" % it[0][0], out) + b'"'


def blocks_of(lines):
    """The lines of a log, each with its newline, by block."""
    blocks = []
    for line in lines:
        if line.startswith(b"turn ") or not blocks:
            blocks.append([])
        blocks[-1].append(line)
    return blocks


class Teller:
    """What the blocks of a log tell, one after another."""

    def __init__(self, version, names, closed):
        self.version, self.names, self.closed = version, names, closed
        # The orders that no result has taken, by name, and those that miss a macro.
        self.open, self.missing = {}, set()

    def turn(self, block):
        """A block as the lines of a script."""
        head = re.fullmatch(rb"turn (\d+) (\d+)\n", block[0])
        if not head or not all(line.endswith(b"\n") for line in block):
            raise Untold
        entries, faults, reports, orders = [], [], [], []
        for line in (it[:-1] for it in block[1:]):
            if found := re.fullmatch(rb"refused line (\d+) (\w+)", line):
                faults.append((int(found[1]), self.fault(found[2])))
            elif found := re.fullmatch(rb"refused report (\d+)", line):
                reports.append(int(found[1]))
            elif found := ORDER.fullmatch(line):
                orders.append((plain(found[2]), int(found[1]), bool(found[3])))
            elif found := ENTRY.fullmatch(line):
                entries.append(self.entry(found, line))
            else:
                raise Untold
        told = self.in_order(entries)
        lines = self.filled([self.line(it) for it in told if it["kind"] == "line"], faults)
        out = [b"turn %d" % int(head[2]), *(b"line " + quoted(it) for it in lines)]
        out += [b"report %d %d %s" % (it["order"], it["status"], quoted(it["output"])) for it in told if it["kind"] == "report" and not it["missing"]]
        out += [b'report %d 0 ""' % it for it in reports]
        for name, number, is_missing in orders:
            self.open.setdefault(name, []).append(number)
            self.missing |= {number} if is_missing else set()
        return b"\n".join(out) + b"\n"

    def fault(self, kind):
        """A line that is refused so."""
        named = next((it for it in self.names if b";" not in it and b"!" not in it), None)
        if kind in REFUSED:
            return REFUSED[kind]
        if kind == b"BadNumber" and named is not None:
            return b"[0] SCHEDULE_HOST_CHECK;" + named + b";x"
        if kind == b"BadSpan" and named is not None:
            return b"[0] SCHEDULE_HOST_DOWNTIME;" + named + b";1;1;1;0;0;;"
        if kind == b"PassiveOff" and self.closed is not None:
            return result_of(self.closed, 0, b"")
        raise Untold

    def entry(self, found, line):
        name, event, output = plain(found[1]), found[4].removesuffix(b" void"), b""
        if name not in self.names or found[3] != b"0":
            raise Untold
        it = {"name": name, "place": self.names.index(name), "number": int(found[2]), "event": event, "kind": "line", "missing": False,
              "seen": [] if found[5] == b"-" else [(plain(one), int(count)) for one, count in SEEN.findall(found[5])]}
        if self.version == 2:
            text = OUTPUT.fullmatch(line)
            if not text or bool(text[1]) != event.startswith((b"result ", b"passive ")):
                raise Untold
            if text[1]:
                output = plain(text[1]) + (b"|" + plain(text[2]) if text[2] != b'""' else b"")
        it["output"] = output
        if event == b"tick":
            it["kind"] = "tick"
        elif status := re.fullmatch(rb"result (\d)", event):
            if not self.open.get(name):
                raise Untold
            order = self.open[name].pop()
            it |= {"kind": "report", "order": order, "status": int(status[1]), "missing": order in self.missing}
        return it

    def line(self, it):
        """The command line that an entry tells."""
        host, mark, own = it["name"].partition(b"!")
        if b";" in it["name"]:
            raise Untold
        at, kind = (host + b";" + own, b"SVC") if mark else (host, b"HOST")
        words = it["event"].split(b" ")
        if words[0] == b"passive":
            return result_of(it["name"], int(words[1]), it["output"])
        if words[0] == b"ack":
            return b"[0] ACKNOWLEDGE_%s_PROBLEM;%s;%d;%d;0;;" % (kind, at, 2 if words[1] == b"sticky" else 1, words[2] == b"notify")
        if words[0] == b"unack":
            return b"[0] REMOVE_%s_ACKNOWLEDGEMENT;%s" % (kind, at)
        if words[0] == b"down":
            fixed = words[3] == b"fixed"
            return b"[0] SCHEDULE_%s_DOWNTIME;%s;%s;%s;%d;0;%s;;" % (kind, at, words[1], words[2], fixed, b"0" if fixed else words[4])
        if words[0] == b"undown":
            return b"[0] DEL_%s_DOWNTIME;%s;%s" % (kind, at, words[1])
        if words[0] in (b"checks", b"notes"):
            what = b"CHECK" if words[0] == b"checks" else b"NOTIFICATIONS"
            return b"[0] %s_%s_%s;%s" % (b"ENABLE" if words[1] == b"on" else b"DISABLE", kind, what, at)
        if words[0] in (b"check", b"forced"):
            return b"[0] SCHEDULE_%s%s_CHECK;%s;%s" % (b"FORCED_" if words[0] == b"forced" else b"", kind, at, words[1])
        raise Untold

    def in_order(self, entries):
        """Entries in told order: again and again the first of those left before which none left must stand."""
        left, out = list(entries), []
        while left:
            ready = next((it for it in left if not any(must_stand_before(other, it) for other in left if other is not it)), None)
            if ready is None:
                raise Untold
            left.remove(ready)
            out.append(ready)
        return out

    def filled(self, lines, faults):
        """The lines of a turn, where the refused ones stand at their numbers."""
        numbers, rest = [number for number, _ in faults], iter(lines)
        if numbers != sorted(set(numbers)) or numbers and not 1 <= numbers[0] <= numbers[-1] <= len(lines) + len(faults):
            raise Untold
        at = dict(faults)
        return [at[number] if number in at else next(rest) for number in range(1, len(lines) + len(faults) + 1)]


def must_stand_before(a, b):
    kinds = {"line": 0, "report": 1, "tick": 2}
    if kinds[a["kind"]] < kinds[b["kind"]]:
        return True
    if a["kind"] == b["kind"] == "tick" and a["place"] < b["place"]:
        return True
    if a["kind"] == b["kind"] == "report" and (not a["missing"], a["order"] * a["missing"]) < (not b["missing"], b["order"] * b["missing"]):
        return True
    if a["place"] == b["place"] and a["number"] < b["number"]:
        return True
    # Of one worker's own entries exactly those are seen that were made before.
    seen = dict(b["seen"]).get(a["name"])
    own = dict(a["seen"]).get(b["name"])
    return seen is not None and a["number"] <= seen or own is not None and b["number"] > own


def result_of(name, status, output):
    host, mark, own = name.partition(b"!")
    if b";" in name:
        raise Untold
    if mark:
        return b"[0] PROCESS_SERVICE_CHECK_RESULT;%s;%s;%d;%s" % (host, own, status, output)
    return b"[0] PROCESS_HOST_CHECK_RESULT;%s;%d;%s" % (host, 0 if status == 0 else 1, output)


class Room:
    """A folder with the files of a row."""

    def __init__(self, program, files):
        self.program, self.room = program, tempfile.mkdtemp(prefix="audits-")
        for name, text in files.items():
            self.put(name, text)
        names = self.run("objects", "r")[1]
        self.names = [plain(it[1]) for it in re.finditer(rb'^(?:Host|Service) (%s) ' % TEXT, names, re.M)]
        closed = [plain(it[1]) for it in re.finditer(rb'^(?:Host|Service) (%s) (.*)' % TEXT, names, re.M) if b'"enable_passive_checks":false' in it[2]]
        self.closed = next((it for it in closed if b";" not in it), None)

    def put(self, name, text):
        os.makedirs(os.path.dirname(f"{self.room}/{name}"), exist_ok=True)
        with open(f"{self.room}/{name}", "wb") as file:
            file.write(text)

    def run(self, *words):
        ran = subprocess.run([self.program, *words], cwd=self.room, stdin=subprocess.DEVNULL, stdout=subprocess.PIPE, stderr=subprocess.DEVNULL)
        return ran.returncode, ran.stdout

    def audit(self, log):
        self.put("audited.log", log)
        return self.run("audit", "r", "audited.log")

    def wanted(self, log):
        """What an audit has to say, and to end with."""
        lines = log.splitlines(keepends=True) if b"\r" not in log else re.findall(rb"[^\n]*\n|[^\n]+", log)
        version = 2 if lines[:1] == [b"log 2\n"] else 1
        own = lines[version - 1:]
        blocks = blocks_of(own)
        if version == 2 and blocks and not blocks[0][0].startswith(b"turn "):
            return 8, b"illegal 1\n"
        teller, script, told = Teller(version, self.names, self.closed), b"", 0
        for block in blocks:
            try:
                script += teller.turn(block)
            except Untold:
                break
            told += 1
        self.put("told.script", script)
        status, written = self.run("replay", "r", "told.script", "--log", str(version))
        if status != 0:
            raise SystemExit(f"the script of told turns isn't run: {status} {written!r}\n{script!r}")
        given = blocks_of(written.splitlines(keepends=True)[version - 1:])
        good = next((at for at in range(told) if given[at] != blocks[at]), told)
        if good == len(blocks):
            return 0, b"legal\n"
        return 8, b"illegal %d\n" % (version + sum(map(len, blocks[:good])))

    def close(self):
        shutil.rmtree(self.room, ignore_errors=True)


def changed(log):
    """Logs that differ from one in a line or a number."""
    lines = log.splitlines(keepends=True)
    for at in range(len(lines)):
        yield b"".join(lines[:at] + lines[at + 1:])
        yield b"".join(lines[:at + 1] + lines[at:])
        if at + 1 < len(lines):
            yield b"".join(lines[:at] + [lines[at + 1], lines[at]] + lines[at + 2:])
    for it in re.finditer(rb"\d+", log):
        yield log[:it.start()] + b"%d" % (int(it[0]) + 1) + log[it.end():]
    yield log[:-1]


def tried(program, name, files, script, change):
    """How many logs of a row were audited, and what differs."""
    room, count, differ = Room(program, files), 0, []
    try:
        room.put("its.script", script)
        for version in ("1", "2"):
            status, log = room.run("replay", "r", "its.script", "--log", version)
            if status != 0:
                return 0, []
            logs = [log, *(changed(log) if change else ())]
            for at, other in enumerate(logs):
                said, want = room.audit(other), (0, b"legal\n") if at == 0 else room.wanted(other)
                count += 1
                if said != want:
                    differ.append(f"{name}: change {at} of version {version}: {said} in place of {want}\n{other.decode(errors='replace')}")
            if room.wanted(log) != (0, b"legal\n"):
                differ.append(f"{name}: version {version}: the told turns have another log")
    finally:
        room.close()
    return count, differ


def scripts():
    """The files and the script of each row that replays one with one worker."""
    rows, seen = rows_module(), set()
    for table in sorted(os.listdir(rows.DATA)):
        for row, _, named in rows.rows_of(table):
            case = rows.case_of(row, named, None)
            if not case:
                continue
            words, files = case
            own = [it for it in words if it not in ("--log", "1", "2")]
            if own not in (["replay", "r", "s"],) or "s" not in files or "r" not in files:
                continue
            key = (files["r"], files["s"])
            if key not in seen:
                seen.add(key)
                yield f"{table}: {row.strip()}"[:300], {name: text for name, text in files.items() if name != "s"}, files["s"]


def chosen(all_scripts, count):
    """Those to change: of each table some of the longest below a limit."""
    tables = {}
    for name, files, script in all_scripts:
        if len(script) < 700:
            tables.setdefault(name.split(":")[0], []).append((len(script), name))
    picked = []
    for at in range(count):
        for table in sorted(tables):
            ranked = sorted(tables[table], reverse=True)
            if at < len(ranked):
                picked.append(ranked[at][1])
    return set(picked[:count])


def main():
    words = argparse.ArgumentParser(description=__doc__, formatter_class=argparse.RawDescriptionHelpFormatter)
    words.add_argument("--program")
    words.add_argument("--changed", type=int, default=30)
    said = words.parse_args()
    program = said.program or subprocess.run([f"{TOP}/bin/program"], stdin=subprocess.DEVNULL, stdout=subprocess.PIPE, text=True, check=True).stdout.strip()
    program, found = os.path.abspath(program), list(scripts())
    change = chosen(found, said.changed)
    count, differ = 0, []
    with concurrent.futures.ThreadPoolExecutor(os.cpu_count()) as pool:
        for more, wrong in pool.map(lambda it: tried(program, it[0], it[1], it[2], it[0] in change), found):
            count, differ = count + more, differ + wrong
    for it in differ:
        print(it)
    print(f"{len(found)} scripts, {count} logs audited, {len(differ)} verdicts are others")
    sys.exit(1 if differ or not count else 0)


if __name__ == "__main__":
    main()
