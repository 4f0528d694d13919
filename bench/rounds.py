#!/usr/bin/env python3
"""Runs random turns with several workers, and checks each log by the rules of rounds alone.

usage: bench/rounds.py [--program FILE] [--scripts N] [--times N] [--workers K,K,..] [--seed N]

A site has 30 hosts and services, which depend on each other. Each script has 20 turns of passive results, forced checks, reports and faulty lines; which reports
it has goes by the orders that one worker's run gave. Each script is replayed so often with each number of workers. Of each log is checked, from its lines:

  dealing    each event of a turn is one entry, by the worker that has to take it; a faulty line, and a report without an order, is one refusal
  rounds     the entries of a worker on a host or service are its events on it in its order, numbered on; each has the state that the entries before it
             make; it has seen all that it depends on: no less than stood there before the turn and no more than after it, no less than the same
             worker saw before, and of the worker's own entries exactly those of its earlier events
  schedule   the orders of a turn are those of the hosts and services that are due by the entries so far

With one worker each log has to be that of a run without the option. `audit` has to find each log legal with its number of workers; taken for one
worker's it has to be illegal from the first turn on in which another worker has an entry, and legal if there is none. It ends with 1 if a log breaks a
rule, and writes the line.
"""
import argparse
import os
import random
import re
import subprocess
import sys
import tempfile

CHECK, RETRY, ATTEMPTS, TICK = 40, 15, 3, 60
ENTRY = re.compile(r'entry "([^"]*)" (\d+) by (\d+) at (\d+): (.*) -> (\w+) (SOFT|HARD) (\d+) \| (.*) \| -$')
STATES = ["OK", "Warning", "Critical", "Unknown"]


class Broken(Exception):
    pass


def want(holds, what):
    if not holds:
        raise Broken(what)


class Site:
    """Hosts and services by their places, and what each depends on."""

    def __init__(self, chance):
        hosts = [f"h{n}" for n in range(10)]
        self.names = hosts + sorted(f"{host}!{name}" for host in hosts for name in "ab")
        self.place = {name: at for at, name in enumerate(self.names)}
        self.active = [chance.random() < 0.7 for _ in self.names]
        parents = {name: {name.split("!")[0]} if "!" in name else set() for name in self.names}
        lines = ['object CheckCommand "c" { command = [ "true" ] }']
        for name, active in zip(self.names, self.active):
            host, _, service = name.partition("!")
            kind = f'Service "{service}" {{ host_name = "{host}"; ' if service else f'Host "{host}" {{ '
            lines.append(f'object {kind}check_command = "c"; check_interval = {CHECK}; retry_interval = {RETRY}; max_check_attempts = {ATTEMPTS}; '
                         f'enable_active_checks = {"true" if active else "false"} }}')
        for number in range(14):
            child, parent = sorted(chance.sample(range(10), 2), reverse=True)
            child, parent = hosts[child], hosts[parent]
            parents[child].add(parent)
            lines.append(f'object Dependency "d{number}" {{ child_host_name = "{child}"; parent_host_name = "{parent}" }}')
        self.text = "\n".join(lines) + "\n"
        self.ancestors = []
        for name in self.names:
            found, open_ones = set(), list(parents[name])
            while open_ones:
                one = open_ones.pop()
                if one not in found:
                    found.add(one)
                    open_ones += parents[one]
            self.ancestors.append(sorted(self.place[one] for one in found))


class Status:
    """What the entries of a host or service so far make of it."""

    def __init__(self, is_host):
        self.is_host, self.state, self.problem, self.attempt, self.hard, self.last, self.count = is_host, "Up" if is_host else "OK", False, 1, True, 0, 0

    def take(self, event, moment):
        kind, status = event
        self.last, self.count = moment, self.count + 1
        if kind in ("passive", "result"):
            problem = status >= 2 if self.is_host else status > 0
            self.attempt = min(self.attempt + 1 if self.problem else 1, ATTEMPTS) if problem else 1
            self.problem, self.hard = problem, not problem or self.attempt == ATTEMPTS
            self.state = ("Down" if problem else "Up") if self.is_host else STATES[status]

    def says(self):
        return self.state, "HARD" if self.hard else "SOFT", self.attempt


class Run:
    """How far a log has come."""

    def __init__(self, site, workers):
        self.site, self.workers = site, workers
        self.turns = self.moment = self.given = 0
        self.statuses = [Status("!" not in name) for name in site.names]
        self.callers = [[] for _ in site.names]
        self.next = [0] * len(site.names)
        self.forced = [False] * len(site.names)
        self.outstanding = {}

    def deal(self, turn):
        """Of each worker its events in their order, and the refusals."""
        events, refused, left = [[] for _ in range(self.workers)], [], dict(self.outstanding)
        for number, (place, event, _) in enumerate(turn["lines"], 1):
            if place is None:
                refused.append(f"refused line {number} {event}")
            else:
                events[0].append((place, event))
        for number, status, _ in turn["reports"]:
            if number in left:
                events[number % self.workers].append((left.pop(number), ("result", status)))
            else:
                refused.append(f"refused report {number}")
        for place, status in enumerate(self.statuses):
            if status.count > 0 and status.problem and status.hard and self.moment >= status.last + TICK:
                events[place % self.workers].append((place, ("tick", None)))
        return events, refused, left

    def turn(self, turn, lines):
        self.turns, self.moment = self.turns + 1, max(self.moment, turn["moment"])
        want(lines[0] == f"turn {self.turns} {self.moment}", f"turn {self.turns} {self.moment} in place of {lines[0]}")
        events, refused, left = self.deal(turn)
        told = [line for line in lines[1:] if line.startswith("refused")]
        want(told == refused, f"turn {self.turns} refuses {told} in place of {refused}")
        entries = [line for line in lines[1:] if line.startswith("entry")]
        orders = [line for line in lines[1:] if line.startswith("order")]
        want(lines[1:] == told + entries + orders, f"the lines of turn {self.turns} are out of order")
        self.round(events, [self.read(line) for line in entries])
        self.outstanding = left
        self.order(orders)

    def read(self, line):
        found = ENTRY.fullmatch(line)
        want(found, f"no entry: {line}")
        name, number, caller, moment, event, state, hard, attempt, seen = found.groups()
        want(int(moment) == self.moment, f"another moment: {line}")
        seen = [] if seen == "-" else [part.rsplit(" ", 1) for part in seen.split(", ")]
        return {"place": self.site.place[name], "number": int(number), "caller": int(caller), "event": event, "says": (state, hard, int(attempt)),
                "seen": [(self.site.place[one.strip('"')], int(count)) for one, count in seen], "line": line}

    def round(self, events, entries):
        before = [status.count for status in self.statuses]
        waiting = {place for place in self.outstanding.values()}
        want([entry["place"] for entry in entries] == sorted(entry["place"] for entry in entries), "entries out of order")
        # The entries of each worker on each place, as they stand.
        stand = {}
        for entry in entries:
            stand.setdefault((entry["caller"], entry["place"]), []).append(entry)
        expected = {}
        for caller, own in enumerate(events):
            for place, event in own:
                expected.setdefault((caller, place), []).append(event)
        want({key: len(own) for key, own in stand.items()} == {key: len(own) for key, own in expected.items()}, f"turn {self.turns}: other events than were dealt")
        for entry in entries:
            place, status = entry["place"], self.statuses[entry["place"]]
            event = expected[entry["caller"], place].pop(0)
            kind, value = event
            text = {"tick": "tick", "forced": f"forced {value}"}.get(kind, f"{kind} {value}")
            want(entry["event"] == text, f"{text} was dealt: {entry['line']}")
            status.take(event, self.moment)
            want(entry["number"] == status.count, f"entry {status.count} comes: {entry['line']}")
            want(entry["says"] == status.says(), f"{status.says()} is right: {entry['line']}")
            self.callers[place].append(entry["caller"])
            self.watch(place, event, status, waiting)
        self.sights(events, stand, before)

    def watch(self, place, event, status, waiting):
        kind, value = event
        if kind == "result" or kind == "passive" and place not in waiting:
            waiting.discard(place)
            self.next[place] = self.moment + (RETRY if status.problem and not status.hard else CHECK)
        elif kind == "forced" and place not in waiting:
            self.next[place], self.forced[place] = value, True

    def sights(self, events, stand, before):
        for caller, own in enumerate(events):
            done, least = {}, {}
            at = {}
            for place, _ in own:
                entry = stand[caller, place][at.get(place, 0)]
                at[place] = at.get(place, 0) + 1
                want([one for one, _ in entry["seen"]] == self.site.ancestors[place], f"other ancestors: {entry['line']}")
                for one, count in entry["seen"]:
                    want(before[one] <= count <= self.statuses[one].count, f"a sight that never stood there: {entry['line']}")
                    want(count >= least.get(one, 0), f"less is seen than before: {entry['line']}")
                    want(self.callers[one][before[one]:count].count(caller) == done.get(one, 0), f"not exactly its own entries are seen: {entry['line']}")
                    least[one] = count
                done[place] = done.get(place, 0) + 1

    def order(self, lines):
        due = sorted((self.next[place], place) for place in range(len(self.site.names)) if place not in self.outstanding.values() and self.next[place] <= self.moment)
        told = []
        for _, place in due:
            if self.forced[place] or self.site.active[place]:
                self.given, self.forced[place] = self.given + 1, False
                self.outstanding[self.given] = place
                told.append(f'order {self.given} "{self.site.names[place]}"')
            else:
                self.next[place] = self.moment + CHECK
        want(lines == told, f"turn {self.turns} orders {lines} in place of {told}")


def cut(log):
    parts = []
    for line in log.splitlines():
        if line.startswith("turn "):
            parts.append([])
        want(parts, f"no turn: {line}")
        parts[-1].append(line)
    return parts


def check(site, turns, workers, log):
    parts, run = cut(log), Run(site, workers)
    try:
        want(len(parts) == len(turns), f"{len(parts)} turns in place of {len(turns)}")
        for turn, lines in zip(turns, parts):
            run.turn(turn, lines)
    except Broken:
        sys.stdout.write(f"{site.text}{text_of(turns)}{log}")
        raise
    return run


def verdict_of_one(log):
    """What `audit` has to say of a log if one worker is said to have written it."""
    begun = 0
    for number, line in enumerate(log.splitlines(), 1):
        if line.startswith("turn "):
            begun = number
        entry = ENTRY.match(line)
        if entry and entry[3] != "0":
            return f"illegal {begun}\n"
    return "legal\n"


def text_of(turns):
    lines = []
    for turn in turns:
        lines.append(f"turn {turn['moment']}")
        lines += [f'line "{text}"' for _, _, text in turn["lines"]]
        lines += [f'report {number} {status} "{text}"' for number, status, text in turn["reports"]]
    return "\n".join(lines) + "\n"


def random_turn(chance, site, moment, run):
    lines, reports = [], []
    for _ in range(chance.randrange(10)):
        place, status = chance.randrange(len(site.names)), chance.choice([0, 0, 1, 2])
        host, _, service = site.names[place].partition("!")
        if chance.random() < 0.1:
            lines.append((None, "UnknownCheckable", f"[{moment}] PROCESS_HOST_CHECK_RESULT;nobody;0;x"))
        elif chance.random() < 0.1:
            word = f"SCHEDULE_FORCED_SVC_CHECK;{host};{service}" if service else f"SCHEDULE_FORCED_HOST_CHECK;{host}"
            lines.append((place, ("forced", moment), f"[{moment}] {word};{moment}"))
        elif service:
            lines.append((place, ("passive", status), f"[{moment}] PROCESS_SERVICE_CHECK_RESULT;{host};{service};{status};x"))
        else:
            lines.append((place, ("passive", 2 if status else 0), f"[{moment}] PROCESS_HOST_CHECK_RESULT;{host};{min(status, 1)};x"))
    for number in run.outstanding if run else ():
        if chance.random() < 0.7:
            reports.append((number, chance.choice([0, 0, 1, 2]), "x"))
    if chance.random() < 0.3:
        reports.append((chance.randrange(1, 60), 0, "x"))
    chance.shuffle(reports)
    return {"moment": moment, "lines": lines, "reports": reports}


def main():
    words = argparse.ArgumentParser(description=__doc__, formatter_class=argparse.RawDescriptionHelpFormatter)
    words.add_argument("--program")
    words.add_argument("--scripts", type=int, default=5)
    words.add_argument("--times", type=int, default=100)
    words.add_argument("--workers", default="1,2,4,16,64")
    words.add_argument("--seed", type=int, default=1)
    said = words.parse_args()
    top = os.path.dirname(os.path.dirname(os.path.realpath(__file__)))
    program = said.program or subprocess.run([f"{top}/bin/program"], stdin=subprocess.DEVNULL, stdout=subprocess.PIPE, text=True, check=True).stdout.strip()
    program, chance, logs, differing = os.path.abspath(program), random.Random(said.seed), 0, 0
    with tempfile.TemporaryDirectory() as room:
        def replay(site, turns, *more):
            for name, text in (("site", site.text), ("script", text_of(turns))):
                with open(f"{room}/{name}", "w", encoding="utf-8") as file:
                    file.write(text)
            return subprocess.run([program, "replay", f"{room}/site", f"{room}/script", *more], stdout=subprocess.PIPE, text=True, check=True).stdout

        def audit(log, workers):
            with open(f"{room}/log", "w", encoding="utf-8") as file:
                file.write(log)
            return subprocess.run([program, "audit", f"{room}/site", f"{room}/log", "--workers", str(workers)], stdout=subprocess.PIPE, stderr=subprocess.DEVNULL,
                                  text=True, check=False).stdout

        for _ in range(said.scripts):
            site, turns, moment, run = Site(chance), [], 1000, None
            for _ in range(20):
                turns.append(random_turn(chance, site, moment, run))
                run = check(site, turns, 1, replay(site, turns))
                moment += chance.choice([1, 5, 15, 40, 70])
            alone = replay(site, turns)
            for workers in map(int, said.workers.split(",")):
                found = set()
                for _ in range(said.times):
                    log = replay(site, turns, "--workers", str(workers))
                    check(site, turns, workers, log)
                    want(workers > 1 or log == alone, "one worker's log differs from that without the option")
                    found.add(log)
                    logs += 1
                for log in found:
                    want(audit(log, workers) == "legal\n", f"a log of {workers} workers is illegal:\n{log}")
                    want(audit(log, 1) == verdict_of_one(log), f"a log of {workers} workers, taken for one worker's, isn't {verdict_of_one(log)}{log}")
                differing += len(found)
    print(f"{logs} logs, {differing} of them different, and each as the rules have it")


if __name__ == "__main__":
    try:
        main()
    except Broken as broken:
        sys.exit(f"{broken}")
