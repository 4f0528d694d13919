#!/usr/bin/env bash
# Runs the examples of the documents, and says where one isn't as it is written. Without names it takes README.md and docs/*.md.
#
# usage: bench/docs.sh [--program FILE] [DOCUMENT ..]
#
# A fenced block ```conf NAME writes the file NAME, and ```conf +NAME adds to it; so does ```script NAME. A block ```console has lines
# `$ COMMAND`, each with the output that it has to give below it; a line `...` stands for any lines. The commands of one document run
# in one folder that holds its files, examples/ and library/, with icinga_site and its tools (as icinga_site-now) on the path and
# UTC as the time zone. Other blocks aren't run.
#
# Two kinds of tables are run as well. In one with a column `input` and a column `answer` each input is a file, with a `⏎` for each
# newline, and the answer is what `check` says of it, without the file's name. In a column `for example` stand expressions with what
# they give, as `1 + 2` is `3`, or with the kind of fault that they are. Ends with 1 if something differs.
set -u
cd "$(dirname "${BASH_SOURCE[0]}")/.." || exit 1
exec python3 - "$PWD" "$@" <<'PYTHON'
import glob
import os
import re
import shutil
import subprocess
import sys
import tempfile

top, *words = sys.argv[1:]
if words[:1] == ["--program"]:
    program, words = os.path.abspath(words[1]), words[2:]
else:
    program = subprocess.run([f"{top}/bin/program"], stdin=subprocess.DEVNULL, stdout=subprocess.PIPE, text=True, check=True).stdout.strip()
documents = words or [f"{top}/README.md", *sorted(glob.glob(f"{top}/docs/*.md"))]
SECONDS = 60


def blocks_of(path):
    """Of each fenced block the number of its first line, the words after the fence, and its lines."""
    block = None
    with open(path, encoding="utf-8") as file:
        for number, line in enumerate(file, 1):
            line = line.rstrip("\n")
            if line.startswith("```"):
                if block is None:
                    block = (number + 1, line[3:].split(), [])
                else:
                    yield block
                    block = None
            elif block is not None:
                block[2].append(line)


def cells_of(line):
    return [cell.strip().replace("\\|", "|") for cell in re.split(r"(?<!\\)\|", line.strip()[1:-1])]


def tables_of(path):
    """Of each row of a table its number, and what stands in it by the heads of its columns."""
    heads, fenced = None, False
    with open(path, encoding="utf-8") as file:
        for number, line in enumerate(file, 1):
            fenced = fenced != line.startswith("```")
            if fenced or not line.startswith("|"):
                heads = None
            elif heads is None:
                heads = cells_of(line)
            elif not re.fullmatch(r"[|\- \n]+", line):
                yield number, dict(zip(heads, cells_of(line)))


def codes_in(cell):
    """What stands in backticks, one or two on each side."""
    return [one.strip(" ") if one else other for one, other in re.findall(r"``(.+?)``|`([^`]+)`", cell)]


def answer_of(room, env, words, text):
    """What the program says of a file with this text."""
    with open(f"{room}/try.conf", "w", encoding="utf-8") as file:
        file.write(text)
    done = subprocess.run(["icinga_site", *words, "try.conf"], cwd=room, env=env, stdin=subprocess.DEVNULL, stdout=subprocess.PIPE, timeout=SECONDS, text=True)
    return done.stdout.replace("try.conf:", "").rstrip("\n")


def run_row(path, number, row, room, env):
    """Runs what a row of a table has; returns how much there was and how much differed."""
    tried = []
    if "input" in row and "answer" in row and codes_in(row["input"]):
        text = "\n".join(line.strip(" ") for line in codes_in(row["input"])[0].split("⏎")) + "\n"
        tried.append((text, "\n".join(codes_in(row["answer"])), answer_of(room, env, ["check"], text)))
    codes = codes_in(row.get("for example", ""))
    for expression, wanted in zip(codes[::2], codes[1::2]):
        got = answer_of(room, env, ["objects"], f'object Zone "v" {{\n  r = {expression}\n}}\n')
        value = re.fullmatch(r'Zone "v" \{"name":"v","r":(.*)\}', got)
        fault = re.fullmatch(r"\d+:\d+: (\w+)(?: .*)?", got)
        tried.append((expression, wanted, value[1] if value else fault[1] if fault else got))
    differed = 0
    for what, wanted, got in tried:
        if wanted != got:
            differed += 1
            print(f"{path}:{number}: {what.rstrip()}", f"  wanted: {wanted}", f"  got:    {got}", sep="\n")
    return len(tried), differed


def fits(wanted, got):
    """Whether the output is the wanted one, in which `...` stands for any lines."""
    pattern = "".join("(?:.*\n)*?" if line == "..." else re.escape(line) + "\n" for line in wanted)
    return re.fullmatch(pattern, "".join(line + "\n" for line in got)) is not None


def folder_for(scratch):
    """A folder with what the commands of a document find around them, and a path on which the program and its tools are."""
    room, tools = f"{scratch}/room", f"{scratch}/tools"
    os.makedirs(room)
    os.makedirs(tools)
    for name in ("examples", "library"):
        if os.path.isdir(f"{top}/{name}"):
            shutil.copytree(f"{top}/{name}", f"{room}/{name}")
    os.symlink(program, f"{tools}/icinga_site")
    os.makedirs(f"{room}/bin")
    os.symlink(program, f"{room}/bin/icinga_site")
    for name in ("explain", "now", "on-sent", "state"):
        if os.path.exists(f"{top}/bin/{name}"):
            os.symlink(f"{top}/bin/{name}", f"{tools}/icinga_site-{name}")
            os.symlink(f"{top}/bin/{name}", f"{room}/bin/{name}")
    return room, {**os.environ, "PATH": f"{tools}:{os.environ['PATH']}", "TZ": "UTC", "LC_ALL": "C.UTF-8"}


def run_console(path, number, lines, room, env):
    """Runs the commands of a block; returns how many there were and how many differed."""
    ran = differed = 0
    at = 0
    while at < len(lines):
        command, end = lines[at][2:], at + 1
        # (what a here-document holds is part of the command)
        mark = re.search(r"<< '(\w+)'", command)
        while mark and end < len(lines) and not command.endswith(f"\n{mark[1]}"):
            command, end = f"{command}\n{lines[end]}", end + 1
        begin = end
        while end < len(lines) and not lines[end].startswith("$ "):
            end += 1
        wanted = lines[begin:end]
        done = subprocess.run(
            ["bash", "-c", command], cwd=room, env=env, stdin=subprocess.DEVNULL, stdout=subprocess.PIPE, stderr=subprocess.STDOUT, timeout=SECONDS, text=True
        )
        got = done.stdout.split("\n")[:-1] if done.stdout.endswith("\n") else done.stdout.split("\n") if done.stdout else []
        ran += 1
        if not fits(wanted, got):
            differed += 1
            print(f"{path}:{number + at}: {command}", *(f"  wanted: {line}" for line in wanted), *(f"  got:    {line}" for line in got), sep="\n")
        at = end
    return ran, differed


ran = differed = 0
for path in documents:
    scratch = tempfile.mkdtemp()
    try:
        room, env = folder_for(scratch)
        for number, kind, lines in blocks_of(path):
            if len(kind) == 2 and kind[0] in ("conf", "script"):
                target = f"{room}/{kind[1].removeprefix('+')}"
                os.makedirs(os.path.dirname(target), exist_ok=True)
                with open(target, "a" if kind[1].startswith("+") else "w", encoding="utf-8") as file:
                    file.writelines(line + "\n" for line in lines)
            elif kind == ["console"]:
                if not lines or not lines[0].startswith("$ "):
                    print(f"{path}:{number}: the block begins with no command")
                    differed += 1
                    continue
                here = run_console(path, number, lines, room, env)
                ran, differed = ran + here[0], differed + here[1]
        for number, row in tables_of(path):
            here = run_row(path, number, row, room, env)
            ran, differed = ran + here[0], differed + here[1]
    finally:
        shutil.rmtree(scratch, ignore_errors=True)
print(f"{ran} examples ran, {differed} differed")
sys.exit(1 if differed else 0)
PYTHON
