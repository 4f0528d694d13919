#!/usr/bin/env bash
# Refuses memory to the program: each of its allocations in turn, by its number, and that one with all that follow. Each run has to end
# with status 6 and the beginning of the right output, or with the right output and its status. Outside the gate; it takes some minutes.
#
# usage: bench/memory.sh [--program FILE] [--most N] [ROW ..]
#
# The program asks the C library for memory, so a library is compiled with gcc and preloaded that counts the calls of malloc, calloc and
# realloc and refuses some. Of a row with more than N allocations (2,500 unless it is given) N are tried, evenly spread. Rows of a
# daemon take a second or two a run, so 60 of each are tried. It prints a line for each row, and ends with 1 if a run was otherwise.
set -u
cd "$(dirname "${BASH_SOURCE[0]}")/.." || exit 1
top=$PWD
if [ "${1-}" = --program ]; then
    program=$(readlink -f "$2")
    shift 2
else
    program=$("$top/bin/program" </dev/null)
fi
room=$(mktemp -d)
trap 'rm -rf "$room"' EXIT
cat >"$room/refuse.c" <<'C'
// Counts the calls that ask for memory, in a file that is shared with whoever started the program, and refuses those
// from REFUSE_FROM to REFUSE_TO.
#include <errno.h>
#include <fcntl.h>
#include <stdatomic.h>
#include <stdint.h>
#include <stdlib.h>
#include <sys/mman.h>
#include <unistd.h>

extern void *__libc_malloc(size_t), *__libc_calloc(size_t, size_t), *__libc_realloc(void *, size_t);

static _Atomic uint64_t own;
static _Atomic uint64_t *calls = &own;
static uint64_t from = UINT64_MAX, to = UINT64_MAX;

__attribute__((constructor)) static void begin(void) {
    int file = open(getenv("REFUSE_COUNT"), O_RDWR | O_CLOEXEC);
    void *at = mmap(0, sizeof own, PROT_READ | PROT_WRITE, MAP_SHARED, file, 0);
    if (at == MAP_FAILED) _exit(99);
    close(file);
    calls = at;
    from = strtoull(getenv("REFUSE_FROM"), 0, 10);
    to = strtoull(getenv("REFUSE_TO"), 0, 10);
    // (what the program starts is given memory)
    unsetenv("LD_PRELOAD");
}

static int refused(void) {
    uint64_t number = atomic_fetch_add(calls, 1) + 1;
    if (number < from || number > to) return 0;
    errno = ENOMEM;
    return 1;
}

void *malloc(size_t size) { return refused() ? 0 : __libc_malloc(size); }
void *calloc(size_t count, size_t size) { return refused() ? 0 : __libc_calloc(count, size); }
void *realloc(void *at, size_t size) { return refused() ? 0 : __libc_realloc(at, size); }
C
gcc -O2 -shared -fPIC -o "$room/refuse.so" "$room/refuse.c" || { echo "it takes gcc: apt-get install gcc libc6-dev" >&2; exit 1; }
cp -r "$top/examples/site" "$room/realistic"
cd "$room" || exit 1
python3 - "$program" "$@" <<'PYTHON'
import concurrent.futures
import os
import re
import struct
import subprocess
import sys
import tempfile

program, *words = sys.argv[1:]
most = 2500
if words[:1] == ["--most"]:
    most, words = int(words[1]), words[2:]
LIVE_MOST = 60
SECONDS = 20
LAST = 2**64 - 1

BASE = """object CheckCommand "c" { command = [ "true" ] }
object NotificationCommand "n" { command = [ "true" ] }
object User "u" { }
object Host "h" { check_command = "c"; enable_active_checks = false }
object Notification "m" { host_name = "h"; service_name = "s"; command = "n"; users = [ "u" ] }
"""
RESULT = '"[1] PROCESS_SERVICE_CHECK_RESULT;h;s;{};x"'
FILES = {
    "two/r": 'include "a"\ninclude "b"\nobject Host "z" { check_command = "c" }\napply Service "s" { check_command = 1 + {}; assign where true }\n',
    "two/a": 'object Host "x" { address = 1 / 0 }\n',
    "two/b": 'object Host "y" { address = [] - 1 }\n',
    "quiet": BASE + 'object Service "s" { host_name = "h"; check_command = "c"; enable_active_checks = false }\n',
    "active": BASE + 'object Service "s" { host_name = "h"; check_command = "c" }\n',
    "recurring": BASE + 'object Service "s" { host_name = "h"; check_command = "c" }\n'
    'object ScheduledDowntime "d" { host_name = "h"; author = "a"; comment = "c"; ranges.thursday = "00:00-01:00" }\n',
    "hard.script": "".join(f"turn {at}\nline {RESULT.format(status)}\n" for at, status in ((10, 2), (20, 2), (30, 2), (40, 0))),
    "callers.script": f'turn 10\nturn 20\nreport 1 0 "x"\nline {RESULT.format(2)}\nturn 30\nreport 1 0 "x"\n',
    # (of one turn more lines and entries than one worker reads and makes, and a report for each worker)
    "many": 'object CheckCommand "c" { command = [ "true" ] }\n'
    'for (i in range(300)) { object Host "h" + i { check_command = "c"; enable_active_checks = false } }\n'
    'for (i in range(100)) { object Host "a" + i { check_command = "c" } }\n',
    "many.script": "turn 10\nturn 11\n"
    + "".join(f'report {order} {order % 3} "x"\n' for order in range(1, 101))
    + "".join(f'line "[1] PROCESS_HOST_CHECK_RESULT;h{at};1;x"\n' for at in range(300))
    + "turn 12\n",
    "down.query": "GET services\nColumns: name state\nFilter: state != 0\n",
    "slow": 'object CheckCommand "c" { command = "echo fine; sleep 0.2" }\nobject Host "h" { check_command = "c"; check_interval = 1; retry_interval = 1 }\n',
}
for name, text in FILES.items():
    os.makedirs(os.path.dirname(name) or ".", exist_ok=True)
    with open(name, "w", encoding="utf-8") as file:
        file.write(text)
STATE = subprocess.run([program, "replay", "quiet", "hard.script", "--log", "2"], stdout=subprocess.PIPE, check=True).stdout.decode().split("\n")
ENTRIES = ",".join('"' + line.replace("\\", "\\\\").replace('"', '\\"') + '"' for line in STATE if line.startswith("entry "))
with open("state", "w", encoding="utf-8") as file:
    file.write('{"checkables":[{"entries":[' + ENTRIES + '],"name":"h!s"}],"version":1}\n')

# Of each row its name and its words.
ROWS = [
    ("realistic site", "objects realistic/icinga2.conf"),
    ("realistic site, counted", "check realistic/icinga2.conf"),
    ("two faulty files", "objects two/r"),
    ("two faulty files, eight workers", "objects two/r --workers 8"),
    ("soft to hard", "replay quiet hard.script"),
    ("soft to hard, two workers", "replay quiet hard.script --workers 2 --log 2"),
    ("two callers", "replay active callers.script"),
    ("two callers, two workers", "replay active callers.script --workers 2"),
    ("many lines and reports, eight workers", "replay many many.script --workers 8"),
    ("recurring downtimes", "replay recurring callers.script --recur"),
    ("query", "query quiet hard.script down.query"),
    ("resume", "resume quiet state callers.script"),
    ("generated site", "gen 4"),
    ("help", "--help"),
    ("wrong words", "watch quiet"),
    ("daemon without input", "daemon active"),
    ("daemon", "daemon slow --log 2"),
    ("daemon, two workers, after a state", "daemon slow before --workers 2 --recur"),
]
with open("before", "w", encoding="utf-8") as file:
    file.write('{"checkables":[{"entries":["entry \\"h\\" 1 by 0 at 1: result 2 -> Down SOFT 1 | - | - | \\"bad\\" \\"\\""],"name":"h"}],"version":1}\n')
# Of a daemon that runs checks for how many seconds its standard input stays open.
LIVE = {"daemon": 1.4, "daemon, two workers, after a state": 1.4}
COMMANDS = b"[1] PROCESS_HOST_CHECK_RESULT;h;1;told\n[1] DISABLE_NOTIFICATIONS\n"
LINE = re.compile(rb'log 2|turn \d+ \d+|order \d+ "h"( "[^"]*")*|refused line \d+ \w+|refused report \d+|entry "h" \d+ by \d at \d+: .* -> (Up|Down) (SOFT|HARD) \d \| - \| -( \| ".*" ".*")?')


def run(row, first, last):
    """The status, the output and what is said on standard error of a run whose allocations from first to last are refused, and how many it had."""
    with tempfile.NamedTemporaryFile(dir=".") as count:
        count.write(bytes(8))
        count.flush()
        env = {"PATH": os.environ["PATH"], "TZ": "UTC", "LD_PRELOAD": f"{os.getcwd()}/refuse.so"}
        env |= {"REFUSE_COUNT": f"{os.getcwd()}/{os.path.basename(count.name)}", "REFUSE_FROM": str(first), "REFUSE_TO": str(last)}
        started = subprocess.Popen([program, *row[1].split()], env=env, stdin=subprocess.PIPE, stdout=subprocess.PIPE, stderr=subprocess.PIPE)
        try:
            if row[0] in LIVE:
                try:
                    started.stdin.write(COMMANDS)
                    started.stdin.flush()
                    started.wait(LIVE[row[0]])
                except (subprocess.TimeoutExpired, BrokenPipeError):
                    pass
            out, said = started.communicate(timeout=SECONDS)
        except subprocess.TimeoutExpired:
            started.kill()
            started.communicate()
            return None, b"", b"", 0
        with open(count.name, "rb") as file:
            return started.returncode, out, said, struct.unpack("Q", file.read())[0]


def is_log(out, whole):
    """Whether this is a daemon's log, or the beginning of one."""
    lines = out.split(b"\n")
    last = lines.pop()
    turns = [int(line.split()[1]) for line in lines if line.startswith(b"turn ")]
    numbers = [int(line.split()[2]) for line in lines if line.startswith(b"entry ")]
    if not all(LINE.fullmatch(line) for line in lines) or turns != list(range(1, len(turns) + 1)) or numbers != sorted(set(numbers)):
        return False
    orders = sum(line.startswith(b"order ") for line in lines)
    return not whole or (last == b"" and orders == sum(b": result " in line for line in lines))


def fault(row, rights, got):
    """What isn't as it should be of a run, if something is."""
    status, out, said, _ = got
    if status is None:
        return "it hangs"
    if status == 6:
        if said.split(b"\n")[-2:] != [b"icinga_site: OutOfMemory", b""]:
            return f"it ends with 6 and says {said!r}"
        if row[0] in LIVE:
            return None if is_log(out, False) else f"it ends with 6, and this begins no log: {out!r}"
        return None if any(right[1].startswith(out) for right in rights) else f"it ends with 6, and this begins no right output: {out!r}"
    if row[0] in LIVE and status == 0:
        return None if is_log(out, True) else f"it ends with 0, and this is no log: {out!r}"
    if (status, out) not in [right[:2] for right in rights]:
        return f"it ends with {status}, writes {out!r} and says {said!r}"
    return None


def tried_of(total, limit):
    """The numbers that are tried of so many."""
    if total <= limit:
        return list(range(1, total + 1))
    return sorted({1 + at * (total - 1) // (limit - 1) for at in range(limit)})


# What two callers make of one turn: either may come first.
EITHER = """turn 1 10
order 1 "h!s"
turn 2 20
entry "h!s" 1 by 0 at 20: passive 2 -> Critical SOFT 1 | "h" 0 | -
entry "h!s" 2 by 1 at 20: result 0 -> OK HARD 1 | "h" 0 | -
turn 3 30
refused report 1
""", """turn 1 10
order 1 "h!s"
turn 2 20
entry "h!s" 1 by 1 at 20: result 0 -> OK HARD 1 | "h" 0 | -
entry "h!s" 2 by 0 at 20: passive 2 -> Critical SOFT 1 | "h" 0 | -
turn 3 30
refused report 1
"""

failed = sum_of_tried = 0
for row in ROWS:
    if words and row[0] not in words:
        continue
    # (several workers may take another number of allocations each time)
    plain = [run(row, LAST, LAST) for _ in range(20 if "worker" in row[0] and row[0] not in LIVE else 1)]
    total = max(it[3] for it in plain)
    wrong = [it for it in plain if it[:2] != plain[0][:2]]
    if row[0] == "two callers, two workers":
        wrong = [it for it in plain if it[0] != 0 or it[1].decode() not in EITHER]
        plain = [(0, text.encode(), b"", 0) for text in EITHER]
    numbers = tried_of(total, LIVE_MOST if row[0] in LIVE else most)
    shown = [f"{row[0]}: with all memory it ends with {it[0]} and writes {it[1]!r}" for it in wrong]
    ends = {}
    with concurrent.futures.ThreadPoolExecutor(8 if row[0] in LIVE else 2) as pool:
        for kind, last_of in (("alone", lambda number: number), ("and all that follow", lambda _: LAST)):
            for number, got in zip(numbers, pool.map(lambda number: run(row, number, last_of(number)), numbers)):
                wrong = fault(row, plain, got)
                ends[got[0]] = ends.get(got[0], 0) + 1
                if wrong:
                    shown.append(f"{row[0]}: allocation {number} of {total}, {kind}: {wrong}")
    failed += len(shown)
    sum_of_tried += 2 * len(numbers)
    print(f"{row[0]}: {total} allocations, {len(numbers)} refused alone and {len(numbers)} with all that follow; ended with", ", ".join(f"{status} {times} times" for status, times in sorted(ends.items(), key=str)))
    print(*shown[:20], *([f"and {len(shown) - 20} more"] if len(shown) > 20 else []), sep="\n", end="\n" if shown else "")
    sys.stdout.flush()
print(f"{sum_of_tried} runs, {failed} not as they should be")
sys.exit(1 if failed else 0)
PYTHON
