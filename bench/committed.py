#!/usr/bin/env python3
"""Commits random sites, most of them with faults, by 1, 2, 4 and 16 workers, and compares what `objects` and `check` write.

usage: bench/committed.py [PROGRAM [SITES [TIMES]]]      300 sites, each 10 times by each number of workers, if nothing else is said

A site has hosts with attributes of their own and from templates, services and notifications by apply rules, also `for` ones, groups, dependencies,
functions that the bodies ask, and now and then a fault: a name or an attribute that isn't there, a value of a wrong type, an object twice, a host
that depends on itself, an evaluation without end. Each run has to write what the run by one worker does, with the same status. Ends with 1 if one doesn't.
"""
import concurrent.futures
import os
import random
import subprocess
import sys
import tempfile

TOP = os.path.dirname(os.path.dirname(os.path.realpath(__file__)))
COMMON = """object CheckCommand "c" { command = [ "/bin/true" ] }
object NotificationCommand "n" { command = [ "/bin/true" ] }
object User "u" { }
object TimePeriod "t" { ranges = { monday = "09:00-17:00" } }
template Host "base" { check_command = "c"; vars.weight = 3 }
template Service "slow" { check_interval = 5m }
const racks = [ "a", "b", "c" ]
function twice(x) { return x * 2 }
function named(h, i) { return h.name + "-" + i }
"""
FAULTS = [
    "vars.x = nothing",
    "vars.x = host.nothing.at_all",
    "nothing_such = 3",
    "max_check_attempts = \"many\"",
    "vars.x = twice()",
    "vars.x = 1 / 0",
    "check_command = \"none\"",
    "vars.x = twice",
    "while (true) { vars.x = 1 }",
    "vars.d = { } ; vars.d.d = vars.d",
]


def maybe(dice, share, text):
    return text if dice.random() < share else ""


def site(dice):
    """The text of a site."""
    faulty = dice.random() < 0.8
    share = dice.choice([0.01, 0.05, 0.3]) if faulty else 0
    hosts, out = dice.randint(1, 120), [COMMON]
    for h in range(hosts):
        name = dice.randint(0, hosts) if faulty and dice.random() < share / 5 else h
        out.append(f'object Host "h{name}" {{ import "base"\n  vars.rack = racks[{h} % 3]\n  vars.weight = twice({h})\n'
                   f'  vars.disks = {{ {"; ".join(f"d{d} = {{ size = {d * h} }}" for d in range(dice.randint(0, 4)))} }}\n  {maybe(dice, share, dice.choice(FAULTS))} }}')
    kept = dice.choice(["true", "host.vars.rack == \"a\"", "host.vars.weight > 10", "match(\"h1*\", host.name)"])
    out.append(f'apply Service "s" {{ import "slow"; check_command = "c"; vars.of = named(host, 1) + get_host(host.name).vars.rack\n  {maybe(dice, share * 4, dice.choice(FAULTS))}\n  assign where {kept} }}')
    out.append(f'apply Service "disk-" for (d => v in host.vars.disks) {{ check_command = "c"; vars.size = v.size; host.vars.last = d\n  {maybe(dice, share * 4, dice.choice(FAULTS))} }}')
    nobody = maybe(dice, share, 'users = [ "nobody" ]')
    out.append(f'apply Notification "m" to Service {{ command = "n"; users = [ "u" ]; period = "t"\n  {nobody}\n  assign where service.name != "none" {maybe(dice, share, "&& host.none.none")} }}')
    out.append(f'apply Dependency "up" to Host {{ parent_host_name = "h{dice.randint(0, hosts - 1)}"\n  assign where host.vars.weight > {dice.randint(0, 2 * hosts)} {maybe(dice, 0.7, "&& false")} }}')
    for g in range(dice.randint(0, 4)):
        out.append(f'object HostGroup "g{g}" {{ {maybe(dice, share, dice.choice(FAULTS))}\n  assign where host.vars.rack == racks[{g} % 3] {maybe(dice, share, "|| host.none.none")} }}')
    return "\n".join(out) + "\n"


def answer(program, root, word, workers):
    ran = subprocess.run([program, word, root, "--workers", str(workers)], stdin=subprocess.DEVNULL, stdout=subprocess.PIPE, stderr=subprocess.PIPE)
    return ran.returncode, ran.stdout


def tried(program, number, times):
    """What is said of a site, and whether it had faults and how many objects or faults it has."""
    text = site(random.Random(number))
    with tempfile.TemporaryDirectory() as room:
        root = f"{room}/site.conf"
        with open(root, "w", encoding="utf-8") as file:
            file.write(text)
        said = []
        wanted = {word: answer(program, root, word, 1) for word in ("objects", "check")}
        for _ in range(times):
            for workers in (2, 4, 16):
                for word in wanted:
                    if answer(program, root, word, workers) != wanted[word]:
                        said.append(f"site {number}: `{word}` by {workers} workers differs from one worker's")
        return said, wanted["objects"][0], wanted["objects"][1].count(b"\n")


def main():
    words = sys.argv[1:]
    if any(it.startswith("-") for it in words):
        sys.exit(__doc__)
    program = words[0] if words else f"{TOP}/bin/icinga_site"
    sites, times = (int(it) for it in (words[1:] + ["300", "10"][len(words[1:]):])[:2])
    statuses, lines, wrong = {}, 0, 0
    with concurrent.futures.ThreadPoolExecutor(2) as pool:
        for said, status, count in pool.map(lambda it: tried(program, it, times), range(sites)):
            statuses[status] = statuses.get(status, 0) + 1
            lines += count
            wrong += len(said)
            print("\n".join(said), end="\n" if said else "")
    print(f"{sites} sites, {lines} lines; by status of one worker: {', '.join(f'{k} {v} times' for k, v in sorted(statuses.items()))}; {sites * times * 6} runs by several workers, {wrong} of them another answer")
    sys.exit(1 if wrong else 0)


if __name__ == "__main__":
    main()
