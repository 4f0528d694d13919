#!/usr/bin/env bash
# Runs the program where the machine fails it: a full disk, pipes and files that are closed, folders in the place of files, reads that
# are refused, and a want of descriptors, processes and memory; and then each call that it makes on the system, refused, interrupted or cut
# short in turn, by its number. Each run has to end with a status that has a name, which standard error tells if it is above 1, and with
# the beginning of the right output; with all of it if the status is 0 or 1. Outside the gate; it takes some minutes.
#
# usage: bench/faults.sh [--program FILE] [--allocator FILE] [SECTION ..]
#
# A section is output, files, room, limits or calls; without one all are run. The limits of memory are tried with the C library's allocator, and with
# mimalloc if it is installed or named. It takes gcc for the calls, and root for a full disk, reads that are
# refused and a limit of processes. It prints a line for each section, and above it each run that was otherwise, and ends with 1 if there is one.
set -u
cd "$(dirname "${BASH_SOURCE[0]}")/.." || exit 1
top=$PWD
if [ "${1-}" = --program ]; then
    program=$(readlink -f "$2")
    shift 2
else
    program=$("$top/bin/program" </dev/null)
fi
allocator=
for file in /usr/lib/x86_64-linux-gnu/libmimalloc.so.2 /usr/lib64/libmimalloc.so.2 /usr/lib/libmimalloc.so.2; do
    [ -r "$file" ] && allocator=$file && break
done
if [ "${1-}" = --allocator ]; then
    allocator=$(readlink -f "$2")
    shift 2
fi
room=$(mktemp -d)
trap 'umount "$room/disk" 2>/dev/null; rm -rf "$room"' EXIT
chmod 755 "$room"
cat >"$room/fail.c" <<'C'
// Counts the calls of the function that FAIL_CALL names, in a file that is shared with whoever started the program. Those from FAIL_FROM to
// FAIL_TO fail with the error FAIL_ERROR; or if that is -1 a read or write is of one byte at most.
#define _GNU_SOURCE
#include <dlfcn.h>
#include <errno.h>
#include <fcntl.h>
#include <poll.h>
#include <pthread.h>
#include <spawn.h>
#include <stdatomic.h>
#include <stdint.h>
#include <stdlib.h>
#include <string.h>
#include <sys/mman.h>
#include <sys/stat.h>
#include <sys/wait.h>
#include <time.h>
#include <unistd.h>

static _Atomic uint64_t own;
static _Atomic uint64_t *calls = &own;
static uint64_t from = UINT64_MAX, to = UINT64_MAX;
static int error;
static const char *named = "";

__attribute__((constructor)) static void begin(void) {
    int (*opened)(const char *, int, ...) = dlsym(RTLD_NEXT, "open");
    int file = opened(getenv("FAIL_COUNT"), O_RDWR | O_CLOEXEC);
    void *at = mmap(0, sizeof own, PROT_READ | PROT_WRITE, MAP_SHARED, file, 0);
    if (at == MAP_FAILED) _exit(99);
    int (*closed)(int) = dlsym(RTLD_NEXT, "close");
    closed(file);
    calls = at;
    from = strtoull(getenv("FAIL_FROM"), 0, 10);
    to = strtoull(getenv("FAIL_TO"), 0, 10);
    error = atoi(getenv("FAIL_ERROR"));
    named = strdup(getenv("FAIL_CALL"));
    unsetenv("LD_PRELOAD");
}

static int fails(const char *name) {
    if (strcmp(name, named) != 0) return 0;
    uint64_t number = atomic_fetch_add(calls, 1) + 1;
    return number >= from && number <= to;
}

// A function that says by -1 that it failed, one that gives the error's number, and one that moves bytes. (Some have other types in
// the library's headers, so they have other names in C.)
#define BY_ERRNO(result, name, parameters, ...) \
    result own_##name parameters __asm__(#name); \
    result own_##name parameters { \
        static result(*real) parameters; \
        if (!real) real = dlsym(RTLD_NEXT, #name); \
        if (fails(#name)) { errno = error; return -1; } \
        return real(__VA_ARGS__); \
    }
#define BY_NUMBER(name, parameters, ...) \
    int own_##name parameters __asm__(#name); \
    int own_##name parameters { \
        static int(*real) parameters; \
        if (!real) real = dlsym(RTLD_NEXT, #name); \
        if (fails(#name)) return error; \
        return real(__VA_ARGS__); \
    }
#define OF_BYTES(name, parameters, file, at, size) \
    ssize_t own_##name parameters __asm__(#name); \
    ssize_t own_##name parameters { \
        static ssize_t(*real) parameters; \
        if (!real) real = dlsym(RTLD_NEXT, #name); \
        if (fails(#name)) { \
            if (error != -1) { errno = error; return -1; } \
            return real(file, at, size > 1 ? 1 : size); \
        } \
        return real(file, at, size); \
    }

OF_BYTES(read, (int file, void *at, size_t size), file, at, size)
OF_BYTES(write, (int file, const void *at, size_t size), file, at, size)
BY_ERRNO(int, open, (const char *path, int flags, mode_t mode), path, flags, mode)
BY_ERRNO(int, openat, (int folder, const char *path, int flags, mode_t mode), folder, path, flags, mode)
BY_ERRNO(int, close, (int file), file)
BY_ERRNO(off_t, lseek, (int file, off_t at, int whence), file, at, whence)
BY_ERRNO(int, statx, (int folder, const char *restrict path, int flags, unsigned mask, struct statx *restrict out), folder, path, flags, mask, out)
BY_ERRNO(ssize_t, getdents64, (int file, void *at, size_t size), file, at, size)
BY_ERRNO(int, clock_gettime, (clockid_t clock, struct timespec *out), clock, out)
BY_ERRNO(int, pipe2, (int *out, int flags), out, flags)
BY_ERRNO(int, fcntl, (int file, int what, long with), file, what, with)
BY_ERRNO(int, poll, (struct pollfd *files, nfds_t count, int timeout), files, count, timeout)
BY_ERRNO(pid_t, waitpid, (pid_t child, int *status, int options), child, status, options)
BY_ERRNO(int, nanosleep, (const struct timespec *length, struct timespec *rest), length, rest)
BY_NUMBER(pthread_create, (pthread_t *restrict thread, const pthread_attr_t *restrict with, void *(*start)(void *), void *restrict of), thread, with, start, of)
BY_NUMBER(posix_spawn, (pid_t *restrict child, const char *restrict path, const posix_spawn_file_actions_t *files, const posix_spawnattr_t *restrict with, char *const *restrict words, char *const *restrict variables), child, path, files, with, words, variables)
C
cp -r "$top/examples/site" "$room/realistic"
cd "$room" || exit 1
python3 - "$program" "$top/packaging/icinga_site.sh" "$allocator" "$@" <<'PYTHON'
import concurrent.futures
import errno
import os
import re
import resource
import signal
import struct
import subprocess
import sys
import tempfile
import time

program, wrapper, allocator, *sections = sys.argv[1:]
SECONDS = 30
NOBODY = 65534
LAST = 2**64 - 1
NAMES = ["Done", "Diagnosed", "Usage", "ReadFault", "WriteFault", "WorldFault", "OutOfMemory", "TurnsSpent", "NotLegal"]
ROOT = os.getuid() == 0

BASE = """object CheckCommand "c" { command = [ "true" ] }
object NotificationCommand "n" { command = [ "true" ] }
object User "u" { }
for (i in range(HOSTS)) { object Host "h" + i { check_command = "c"; enable_active_checks = false } }
apply Notification "m" to Host { command = "n"; users = [ "u" ]; assign where true }
"""
FILES = {
    "site": BASE.replace("HOSTS", "3"),
    "big": BASE.replace("HOSTS", "2000"),
    "faulty": "\n".join(f'object Host "x{at}" {{ address = 1 }}' for at in range(3000)) + "\n",
    "walk/root": 'include "one"\ninclude_recursive "conf.d"\n',
    "walk/one": 'object CheckCommand "c" { command = [ "true" ] }\n',
    "walk/conf.d/two.conf": 'object Host "h" { check_command = "c" }\n',
    "script": "".join(f'turn {10 * turn}\nline "[1] PROCESS_HOST_CHECK_RESULT;h{turn % 3};{turn % 2};x"\n' for turn in range(1, 40)),
    "big.script": "".join(f"turn {turn}\n" + "".join(f'line "[1] PROCESS_HOST_CHECK_RESULT;h{(7 * turn + at) % 2000};{turn % 2};x"\n' for at in range(100)) for turn in range(1, 40)),
    "state": '{"checkables":[{"entries":["entry \\"h0\\" 1 by 0 at 1: passive 2 -> Down SOFT 1 | - | - | \\"x\\" \\"\\""],"name":"h0"}],"version":1}\n',
    # (of one turn more lines and entries than one worker reads and makes, and a report for each worker)
    "many": BASE.replace("HOSTS", "300") + 'for (i in range(100)) { object Host "a" + i { check_command = "c" } }\n',
    "many.script": "turn 10\nturn 11\n"
    + "".join(f'report {order} {order % 3} "x"\n' for order in range(1, 101))
    + "".join(f'line "[1] PROCESS_HOST_CHECK_RESULT;h{at};1;x"\n' for at in range(300))
    + "turn 12\n",
    "query": "GET hosts\nColumns: name state\n",
    "touch": 'object CheckCommand "c" { command = [ "touch", "touched" ] }\nobject Host "h0" { check_command = "c" }\n',
    "hanging": 'object CheckCommand "c" { command = "exec sleep 30" }\nfor (i in range(3)) { object Host "h" + i { check_command = "c" } }\n',
    "live": 'object CheckCommand "c" { command = "echo fine; sleep 0.2" }\nfor (i in range(3)) { object Host "h" + i { check_command = "c"; check_interval = 1; retry_interval = 1 } }\n',
}
WORDS = {
    "--help": "--help",
    "--version": "--version",
    "wrong words": "watch site",
    "check": "check site",
    "check, faulty": "check faulty",
    "objects": "objects realistic/icinga2.conf",
    "objects, big": "objects big",
    "replay": "replay site script --log 2",
    "replay, workers": "replay many many.script --workers 8",
    "replay, big": "replay big big.script --recur",
    "query": "query site script query",
    "query, big": "query big big.script query",
    "resume": "resume site state script",
    "keep": "keep site script",
    "keep, big": "keep big big.script",
    "audit": "audit site log",
    "audit, not legal, workers": "audit site wrong.log --workers 4",
    "gen": "gen 20",
    "daemon": "daemon live --log 2",
    "daemon, workers, after a state": "daemon site state --workers 4 --recur",
}
LIVE = {"daemon": 1.6, "daemon, workers, after a state": 0.5}
COMMANDS = b"[1] PROCESS_HOST_CHECK_RESULT;h0;1;told\n[1] DISABLE_NOTIFICATIONS\n"
LINE = re.compile(rb'log 2|turn \d+ \d+|order \d+ "h\d"( "[^"]*")*|refused line \d+ \w+|entry "h\d" \d+ by \d at \d+: .* -> (Up|Down) (SOFT|HARD) \d+ \| - \| (-|"h\d!m" .*)( \| ".*" ".*")?')
for name, text in FILES.items():
    os.makedirs(os.path.dirname(name) or ".", exist_ok=True)
    with open(name, "w", encoding="utf-8") as file:
        file.write(text)
log = subprocess.run([program, "replay", "site", "script"], stdout=subprocess.PIPE, check=True).stdout
for name, text in (("log", log), ("wrong.log", log.replace(b"Down SOFT 1", b"Down HARD 1", 1))):
    with open(name, "wb") as file:
        file.write(text)

rights = {}
counts = {}
tried = failed = 0


def run(what, words, stdout=subprocess.PIPE, limits=(), user=None, env=(), stdin=None, close=(), wrapped=False):
    """The status, the output and what is said on standard error of a run. A daemon that waits for descriptors, processes or memory gets some in the end.
    A wrapped one is started as the package does it."""

    def become():
        if user is not None:
            os.setgroups([])
            os.setgid(user)
            os.setuid(user)

    def prepare():
        for limit, most in limits:
            resource.setrlimit(limit, (most, resource.getrlimit(limit)[1]))
        # (a file that grows beyond its limit is a signal first, and an error if that is ignored, which the package sees to)
        signal.signal(signal.SIGXFSZ, signal.SIG_DFL if wrapped else signal.SIG_IGN)
        for file in close:
            os.close(file)
        become()

    more = ((resource.RLIMIT_NOFILE, "nofile=1000"), (resource.RLIMIT_NPROC, "nproc=1000"), (resource.RLIMIT_AS, "as=unlimited"))
    room = [most for limit, most in more if what in LIVE and limit in dict(limits)]
    started = subprocess.Popen(
        [wrapper if wrapped else program, *words.split()],
        stdin=subprocess.PIPE if stdin is None else stdin,
        stdout=stdout,
        stderr=subprocess.PIPE,
        env={"PATH": os.environ["PATH"], "TZ": "UTC", "ICINGA_SITE_PROGRAM": program, **dict(env)},
        preexec_fn=prepare,
    )
    try:
        if what in LIVE and stdin is None:
            try:
                started.stdin.write(COMMANDS)
                started.stdin.flush()
                started.wait(LIVE[what])
            except (subprocess.TimeoutExpired, BrokenPipeError):
                pass
        out, said = started.communicate(timeout=3 if room else SECONDS)
    except subprocess.TimeoutExpired:
        # (checks wait until there is room for them)
        for most in room:
            subprocess.run(["prlimit", f"--pid={started.pid}", f"--{most}:"], preexec_fn=become)
        try:
            out, said = started.communicate(timeout=SECONDS if room else 0)
        except subprocess.TimeoutExpired:
            started.kill()
            out, said = started.communicate()
            return None, out or b"", said
    return started.returncode, out or b"", said


def is_log(out, whole):
    """Whether this is a daemon's log, or the beginning of one."""
    lines = out.split(b"\n")
    last = lines.pop()
    turns = [int(line.split()[1]) for line in lines if line.startswith(b"turn ")]
    if not all(LINE.fullmatch(line) for line in lines) or turns != list(range(1, len(turns) + 1)):
        return False
    orders = sum(line.startswith(b"order ") for line in lines)
    return not whole or (last == b"" and orders == sum(b": result " in line for line in lines))


def right(what):
    """The output of a run that nothing fails, and its status."""
    if what not in rights:
        rights[what] = run(what, WORDS[what])
        if rights[what][0] != {"check, faulty": 1, "wrong words": 2, "audit, not legal, workers": 8}.get(what, 0):
            sys.exit(f"{what}, with all that it needs: {rights[what]}")
    return rights[what]


def judge(what, got, allowed, where, whole_of=None):
    """Counts a run, and writes it if its status isn't an allowed one, if that isn't said, or if the output isn't a beginning of the right one."""
    global tried, failed
    tried += 1
    status, out, said = got
    wanted = right(what) if whole_of is None else whole_of
    wrong = None
    if status is None:
        wrong = "it hangs"
    elif status < 0:
        wrong = f"a signal ends it: {-status}"
    elif status == 127 and not out and b"error while loading shared libraries" in said:
        wrong = None  # The machine has too little memory to load the program, so it never began.
    elif status not in allowed and status != wanted[0]:
        wrong = f"it ends with {status}"
    elif status > 1 and not said.endswith(f"icinga_site: {NAMES[status]}\n".encode()) and "stderr" not in where:
        wrong = f"it ends with {status} and doesn't say so"
    elif what in LIVE:
        if not is_log(out, status == 0):
            wrong = f"it ends with {status}, and this is no log: {out!r}"
    elif status == wanted[0] and out != wanted[1]:
        wrong = f"it ends with {status}, and its output isn't the right one: {out[:300]!r}"
    elif not wanted[1].startswith(out):
        wrong = f"it ends with {status}, and this begins no right output: {out[:300]!r}"
    counts[status] = counts.get(status, 0) + 1
    if wrong:
        failed += 1
        print(f"{what}, {where}: {wrong}", f"  said: {said.decode(errors='replace').strip()!r}", sep="\n")
    return wrong is None


def expect(what, got, status, where, said=None):
    """Counts a run that has to end with this very status, and to say this."""
    if judge(what, got, (status,), where, (status, right(what)[1], b"") if got[1] == right(what)[1] else right(what)):
        global failed
        if got[0] != status or (said is not None and said not in got[2].decode(errors="replace")):
            failed += 1
            print(f"{what}, {where}: it ends with {got[0]} and not {status}", f"  said: {got[2].decode(errors='replace').strip()!r}", sep="\n")


def section(name, body):
    global counts
    if sections and name not in sections:
        return
    before, counts = (tried, failed), {}
    begin = time.time()
    body()
    ends = ", ".join(f"{status} {times} times" for status, times in sorted(counts.items(), key=str))
    print(f"{name}: {tried - before[0]} runs, {failed - before[1]} not as they should be; ended with {ends}; {time.time() - begin:.0f} s")
    sys.stdout.flush()


def outputs():
    for what, words in WORDS.items():
        # (wrong words write nothing, so no output fails them)
        writes = right(what)[1] != b""
        status = 4 if writes else right(what)[0]
        with open("/dev/full", "wb") as full:
            expect(what, run(what, words, stdout=full), status, "/dev/full")
        with open("script", "rb") as unwritable:
            expect(what, run(what, words, stdout=unwritable), status, "a file that is open for reading alone")
        expect(what, run(what, words, stdout=None, close=[1]), status, "no standard output")
        read, write = os.pipe()
        os.close(read)
        expect(what, run(what, words, stdout=write), status, "a pipe that nobody reads")
        os.close(write)
        if what in LIVE:
            continue
        # Who reads goes after so many bytes.
        for much in (1, 1000, 70000):
            read, write = os.pipe()
            started = subprocess.Popen([program, *words.split()], stdin=subprocess.DEVNULL, stdout=write, stderr=subprocess.PIPE, env={"TZ": "UTC"})
            os.close(write)
            out = b""
            while len(out) < much:
                some = os.read(read, much - len(out))
                if not some:
                    break
                out += some
            os.close(read)
            _, said = started.communicate(timeout=SECONDS)
            # (what fits into the pipe is written before the reader goes)
            judge(what, (started.returncode, out if started.returncode == 4 else right(what)[1], said), (4,), f"who reads goes after {much} bytes")
        # A file that may not grow beyond so many bytes.
        for most in (0, 1, 100, 4096, 65536):
            with tempfile.TemporaryFile() as file:
                got = run(what, words, stdout=file, limits=[(resource.RLIMIT_FSIZE, most)])
                file.seek(0)
                out = file.read()
                expect(what, (got[0], out, got[2]), 4 if len(right(what)[1]) > most else right(what)[0], f"a file of {most} bytes at most")
        # Standard error is full or closed: the status and the output are the same.
        got = subprocess.run([program, *words.split()], stdin=subprocess.DEVNULL, stdout=subprocess.PIPE, stderr=open("/dev/full", "wb"), env={"TZ": "UTC"})
        judge(what, (got.returncode, got.stdout, b""), (), "stderr is full")
        got = subprocess.run(["sh", "-c", 'exec "$0" "$@" 2>&-', program, *words.split()], stdin=subprocess.DEVNULL, stdout=subprocess.PIPE, env={"TZ": "UTC"})
        judge(what, (got.returncode, got.stdout, b""), (), "stderr is closed")
        # A pipe that doesn't block, and is full.
        read, write = os.pipe()
        os.set_blocking(write, False)
        got = run(what, words, stdout=write)
        os.close(write)
        out = b""
        while some := os.read(read, 65536):
            out += some
        os.close(read)
        expect(what, (got[0], out, got[2]), 4 if len(right(what)[1]) > 65536 else right(what)[0], "a pipe that doesn't block")
    # The same limit for a program that is started as the package does it: no signal ends it.
    for what in ("objects", "replay", "daemon"):
        with tempfile.TemporaryFile() as file:
            got = run(what, WORDS[what], stdout=file, limits=[(resource.RLIMIT_FSIZE, 100)], wrapped=True)
            file.seek(0)
            expect(what, (got[0], file.read(), got[2]), 4, "a file of 100 bytes at most, as the package starts it")
    # If the lines of a turn can't be written, none of its checks is started.
    with open("/dev/full", "wb") as full:
        expect("daemon", run("daemon", "daemon touch", stdout=full), 4, "/dev/full, with a check that leaves a file")
    if os.path.exists("touched"):
        global failed
        failed += 1
        print("a check was started whose turn couldn't be written")
    os.makedirs("disk", exist_ok=True)
    if subprocess.run(["mount", "-t", "tmpfs", "-o", "size=64k", "tmpfs", "disk"], stderr=subprocess.DEVNULL).returncode:
        print("a full disk isn't tried: no file system can be mounted")
        return
    for what, words in WORDS.items():
        if what in LIVE:
            continue
        for kept in (0, 65536 - 4096, 65536):
            with open("disk/other", "wb") as file:
                file.write(bytes(kept))
            with open("disk/log", "wb+") as file:
                got = run(what, words, stdout=file)
                file.seek(0)
                out = file.read()
            os.remove("disk/log")
            expect(what, (got[0], out, got[2]), 4 if len(right(what)[1]) > 65536 - kept else right(what)[0], f"a disk with room for {65536 - kept} bytes")
    subprocess.run(["umount", "disk"], check=True)


def named(path, reason):
    return f"icinga_site: can't read {path}: {reason}"


def files():
    nothing = (3, b"", b"")
    os.makedirs("folder", exist_ok=True)
    os.makedirs("in/conf.d/folder.conf", exist_ok=True)
    folder = "Is a directory"
    of_folders = {
        "the root is a folder": ("check folder", "folder"),
        "the root of a daemon is a folder": ("daemon folder", "folder"),
        "the script is a folder": ("replay site folder", "folder"),
        "the state file is a folder": ("resume site folder script", "folder"),
        "the state file of a daemon is a folder": ("daemon site folder", "folder"),
        "the script behind a state file is a folder": ("resume site state folder", "folder"),
        "the query is a folder": ("query site script folder", "folder"),
        "the log is a folder": ("audit site folder", "folder"),
    }
    for where, (words, path) in of_folders.items():
        rights[where] = nothing
        expect(where, run("", words, stdin=subprocess.DEVNULL), 3, where, named(path, folder))
    with open("in/root", "w", encoding="utf-8") as file:
        file.write('include "folder"\n')
    os.makedirs("in/folder", exist_ok=True)
    rights["in"] = nothing
    expect("in", run("", "objects in/root"), 3, "an included file is a folder", named("in/folder", folder))
    # What a pattern finds is files alone: a folder that is named like one is passed over.
    with open("in/root", "w", encoding="utf-8") as file:
        file.write('include "conf.d/*.conf"\ninclude_recursive "conf.d"\n')
    rights["pattern"] = (0, b"ok 0 objects\n", b"")
    expect("pattern", run("", "check in/root"), 0, "a folder that is named like a file")
    os.symlink("loop", "in/loop")
    rights["loop"] = nothing
    expect("loop", run("", "check in/loop"), 3, "a link to itself", named("in/loop", "Too many levels of symbolic links"))
    os.symlink("gone", "in/conf.d/link.conf")
    rights["link"] = (1, b'in/root:1:9: NoFile "in/conf.d/link.conf"\nin/root:2:19: NoFile "in/conf.d/link.conf"\n', b"")
    expect("link", run("", "check in/root"), 1, "a link to nothing in a folder")
    # Reads that fail, and files that have no end.
    rights["mem"] = nothing
    expect("mem", run("", "check /proc/self/mem"), 3, "a file that can't be read", "icinga_site: can't read /proc/self/mem: Input/output error")
    rights["no end"] = (6, b"", b"")
    for words in ("check /dev/zero", "replay site /dev/zero", "resume site /dev/zero script", "query site script /dev/zero", "audit site /dev/zero"):
        expect("no end", run("", words, limits=[(resource.RLIMIT_AS, 100 << 20)]), 6, f"{words}, with 100 MB")
    # Standard input of a daemon that can't be read.
    rights["daemon's input"] = (5, b"", b"")
    with open("/proc/self/mem", "rb") as unreadable:
        expect("daemon's input", run("", "daemon live", stdin=unreadable), 5, "standard input can't be read")
    folder_handle = os.open("folder", os.O_RDONLY)
    expect("daemon's input", run("", "daemon live", stdin=folder_handle), 5, "standard input is a folder")
    os.close(folder_handle)
    expect("daemon's input", run("", "daemon live", stdin=subprocess.DEVNULL, close=[0]), 5, "no standard input")
    read, write = os.pipe()
    os.set_blocking(read, False)
    os.close(write)
    rights["daemon's input"] = (0, b"", b"")
    expect("daemon's input", run("", "daemon live", stdin=read), 0, "a pipe that doesn't block, and has ended")
    os.close(read)
    if not ROOT:
        print("reads that are refused aren't tried: it takes root")
        return
    # Reads that are refused, to who isn't root.
    of_words = {"script": "replay site script", "state": "resume site state script", "query": "query site script query", "log": "audit site log"}
    for name in ("walk/root", "walk/one", "walk/conf.d", "walk/conf.d/two.conf", *of_words):
        words = of_words.get(name, "check walk/root")
        mode = os.stat(name).st_mode
        os.chmod(name, 0)
        rights["refused"] = nothing
        expect("refused", run("", words, user=NOBODY, stdin=subprocess.DEVNULL), 3, f"{name} without rights", named(name, "Permission denied"))
        os.chmod(name, mode)
    os.chmod("walk", 0o644)
    expect("refused", run("", "check walk/root", user=NOBODY), 3, "a folder that may not be entered", named("walk/root", "Permission denied"))
    os.chmod("walk", 0o755)


def spread(jobs):
    """Runs jobs beside each other, in order: most of them wait."""
    with concurrent.futures.ThreadPoolExecutor(6) as pool:
        return list(pool.map(lambda job: job(), jobs))


def limits():
    for what in WORDS:
        right(what)
    cases = []
    for what, words in WORDS.items():
        for most in range(4, 21):
            cases.append((what, (3,), f"{most} descriptors", dict(limits=[(resource.RLIMIT_NOFILE, most)])))
        for megabytes in range(4, 41):
            cases.append((what, (6,), f"{megabytes} MB of memory", dict(limits=[(resource.RLIMIT_AS, megabytes << 20)])))
        for megabytes in range(8, 97, 8) if allocator else ():
            preloaded = {"LD_PRELOAD": allocator, "ICINGA_SITE_ALLOCATOR": allocator}
            cases.append((what, (6,), f"{megabytes} MB of memory, with mimalloc", dict(limits=[(resource.RLIMIT_AS, megabytes << 20)], env=preloaded.items())))
        for kilobytes in (128, 256, 512, 1024):
            cases.append((what, (6,), f"{kilobytes} KB of stack", dict(limits=[(resource.RLIMIT_STACK, kilobytes << 10)])))
        if ROOT:
            # (a user of its own for each, of whom nothing else runs)
            for most in range(1, 9):
                cases.append((what, (6,), f"{most} processes", dict(limits=[(resource.RLIMIT_NPROC, most)], user=61000 + len(cases))))
    answers = spread([lambda what=what, with_=with_: run(what, WORDS[what], **with_) for what, _, _, with_ in cases])
    for (what, allowed, where, _), got in zip(cases, answers):
        judge(what, got, allowed, where)
    if not ROOT:
        print("a limit of processes isn't tried: it takes root")


# Calls whose lasting want a daemon waits out: a check waits until there is room for its thread and its program.
WAITED_OUT = ("pipe2", "fcntl", "posix_spawn", "pthread_create")

# Of each call with which errors it fails, and the statuses that may come of it.
CALLS = {
    "open": ((errno.EIO, errno.EMFILE), (3,)),
    "openat": ((errno.EIO, errno.EMFILE), (3,)),
    "read": ((errno.EIO, errno.EINTR, -1), (3, 5)),
    "write": ((errno.EIO, errno.ENOSPC, errno.EINTR, -1), (4,)),
    "close": ((errno.EIO,), ()),
    "lseek": ((errno.EIO,), (3,)),
    "statx": ((errno.EIO,), (3,)),
    "getdents64": ((errno.EIO,), (3,)),
    "clock_gettime": ((errno.EINVAL,), (5,)),
    "pipe2": ((errno.EMFILE,), (5,)),
    "fcntl": ((errno.EMFILE, errno.EINTR), (3, 5)),
    "poll": ((errno.ENOMEM, errno.EINTR), (5,)),
    "waitpid": ((errno.ECHILD, errno.EINTR), ()),
    "nanosleep": ((errno.EINTR,), ()),
    "pthread_create": ((errno.EAGAIN,), (5, 6)),
    "posix_spawn": ((errno.EAGAIN, errno.ENOENT), ()),
}


def counted(what, call, error, first, last):
    """A run in which these calls fail, and how many there were."""
    with tempfile.NamedTemporaryFile(dir=".") as count:
        count.write(bytes(8))
        count.flush()
        env = {"LD_PRELOAD": f"{os.getcwd()}/fail.so", "FAIL_COUNT": f"{os.getcwd()}/{os.path.basename(count.name)}", "FAIL_CALL": call}
        env |= {"FAIL_FROM": str(first), "FAIL_TO": str(last), "FAIL_ERROR": str(error)}
        got = run(what, WORDS[what], env=env.items())
        with open(count.name, "rb") as file:
            return got, struct.unpack("Q", file.read())[0]


def makes_calls_fail():
    """Builds what makes calls fail, if there is gcc."""
    return os.path.exists("fail.so") or not subprocess.run(["gcc", "-O2", "-shared", "-fPIC", "-w", "-o", "fail.so", "fail.c"]).returncode


def turns_of(out):
    return sum(line.startswith(b"turn ") for line in out.split(b"\n"))


def held(words, call, error, first, last, seconds):
    """How a daemon of which these calls fail stands after so many seconds, a second after whose beginning its input ends; then it is killed."""
    with tempfile.NamedTemporaryFile(dir=".") as count, tempfile.TemporaryFile() as log, tempfile.TemporaryFile() as errors:
        count.write(bytes(8))
        count.flush()
        env = {"LD_PRELOAD": f"{os.getcwd()}/fail.so", "FAIL_COUNT": f"{os.getcwd()}/{os.path.basename(count.name)}", "FAIL_CALL": call}
        env |= {"FAIL_FROM": str(first), "FAIL_TO": str(last), "FAIL_ERROR": str(error)}
        started = subprocess.Popen([program, *words.split()], stdin=subprocess.PIPE, stdout=log, stderr=errors, env={"PATH": os.environ["PATH"], "TZ": "UTC", **env})
        time.sleep(1.5)
        started.stdin.close()
        try:
            status = started.wait(seconds)
        except subprocess.TimeoutExpired:
            started.kill()
            started.wait()
            status = None
        log.seek(0)
        errors.seek(0)
        return status, log.read(), errors.read()


def rooms():
    """A want of threads or programs holds up no turn, and is told if it lasts; nothing that hangs is waited for in the place of a turn."""
    global tried, failed
    if not makes_calls_fail():
        print("a want of threads isn't tried: it takes gcc")
        return
    want = "icinga_site: checks have waited ten seconds for descriptors, processes, threads or memory: "
    end = "icinga_site: standard input has ended, and checks are waited for: "
    no_room = "icinga_site: no check waits for room any more"
    cases = [
        # (what fails, of which calls, for how long, how it ends, and what is told)
        ("hanging", "pthread_create", errno.EAGAIN, 1, LAST, 14, None, [want + "3", end + "0 run, and 3 wait for room"]),
        ("hanging", "pthread_create", errno.EAGAIN, 2, LAST, 14, None, [want + "2", end + "1 run, and 2 wait for room"]),
        ("hanging", "posix_spawn", errno.EAGAIN, 1, LAST, 14, None, [want + "3", end + "0 run, and 3 wait for room"]),
        ("hanging", "pthread_create", 0, LAST, LAST, 14, None, [end + "3 run, and 0 wait for room"]),
        ("live", "pthread_create", errno.EAGAIN, 1, 6, 14, 0, []),
        ("live", "pthread_create", errno.EAGAIN, 1, 16, 20, 0, [want + "3", end + "0 run, and 3 wait for room", no_room]),
        ("live", "poll", errno.ENOMEM, 1, LAST, 14, 5, ["icinga_site: WorldFault"]),
        ("live", "poll", errno.EINVAL, 3, LAST, 14, 5, ["icinga_site: WorldFault"]),
    ]
    answers = spread([lambda it=it: held(f"daemon {it[0]} --log 2", *it[1:6]) for it in cases])
    for (site, call, error, first, last, seconds, status, told), got in zip(cases, answers):
        tried += 1
        counts[got[0]] = counts.get(got[0], 0) + 1
        said = got[2].decode(errors="replace").splitlines()
        # (who is killed had a turn each second)
        if got[0] != status or said != told or not is_log(got[1], status == 0) or status is None and turns_of(got[1]) < seconds - 2:
            failed += 1
            print(f"{site}, {call} {first} to {last}: it ends with {got[0]} after {turns_of(got[1])} turns", f"  said: {said}", f"  log: {got[1][-300:]!r}", sep="\n")


def calls():
    if not makes_calls_fail():
        print("the calls aren't tried: it takes gcc")
        return
    for what in WORDS:
        right(what)
    for call, (errors, allowed) in CALLS.items():
        cases = []
        for what in WORDS:
            _, total = counted(what, call, 0, LAST, LAST)
            numbers = range(1, total + 1) if total <= 60 else sorted({1 + at * (total - 1) // 59 for at in range(60)})
            if what in LIVE:
                numbers = [*numbers][:20]
            for error in errors:
                for number in numbers:
                    cases.append((what, error, number, number, total))
                if total and error != errno.EINTR and not (what in LIVE and call in WAITED_OUT):
                    cases.append((what, error, 1, LAST, total))
        answers = spread([lambda it=it: counted(it[0], call, it[1], it[2], it[3])[0] for it in cases])
        for (what, error, first, last, total), got in zip(cases, answers):
            # (what is interrupted or cut short is done again, and so right in the end)
            may = () if error in (errno.EINTR, -1) else allowed
            name = "one byte" if error == -1 else errno.errorcode[error]
            judge(what, got, may, f"{call} {first}{' and all that follow' if last == LAST else ''} of {total}: {name}" + (", on stderr" if call == "write" else ""))
        print(f"  {call}: {len(cases)} runs")
        sys.stdout.flush()


section("output", outputs)
section("files", files)
section("room", rooms)
section("limits", limits)
section("calls", calls)
print(f"{tried} runs, {failed} not as they should be")
sys.exit(1 if failed else 0)
PYTHON
