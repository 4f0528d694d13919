#!/usr/bin/env bash
# Checks what README.md, docs/ and the other pages of the repository name: files, headings, crates, clauses, kinds and counts.
#
# usage: bench/claims.sh [DOCUMENT ..]
#
# Without names it takes every page. It says of each page
#   - that each path that it names is there, and each heading that it sends a reader to, as `docs/RUN.md, "Time periods"`;
#   - that each name in backticks is a word of the sources, the scripts or the examples, but in docs/MIGRATING.md and in paragraphs
#     that begin with `>`, which speak of Icinga 2;
#   - that `A` of `F` names a clause A of a function F, and a name in brackets stands in the crate that the brackets or the paragraph name;
#   - that each count of rows is the one of its table, as `| `words.rows` | 103 |` or `103 rows (words.rows)`;
# and of the tables that list the same things as the sources that they do: the crates, the kinds of diagnostics, the faults of command
# lines, the commands, the attributes, the statuses, the must-fail edits, and the variables of the library's check commands, which the
# program in release/ lists. Ends with 1 if a claim doesn't hold.
set -u
cd "$(dirname "${BASH_SOURCE[0]}")/.." || exit 1
exec python3 - "$@" <<'PYTHON'
import functools
import glob
import json
import os
import re
import subprocess
import sys
import tempfile

pages = sys.argv[1:] or ["README.md", *sorted(glob.glob("docs/*.md")), "library/README.md", *sorted(glob.glob("examples/*/README.md"))]
whole = not sys.argv[1:]
checked, wrong = 0, 0


def check(holds, page, line, said):
    global checked, wrong
    checked += 1
    if not holds:
        wrong += 1
        print(f"{page}:{line}: {said}")


def read(path):
    with open(path, encoding="utf-8", errors="replace") as file:
        return file.read()


@functools.cache
def crates():
    """Each crate with what crates.txt says that it cites, in its order."""
    lines = (line.split("#")[0] for line in read("crates.txt").splitlines())
    return {name.strip(): cited.split() for name, mark, cited in (line.partition(":") for line in lines) if mark}


@functools.cache
def sources(crate):
    """The files of a crate that clauses and definitions stand in."""
    found = [path for part in ("src", "specs", "proofs") for path in glob.glob(f"crates/{crate}/{part}/**", recursive=True)]
    return {path: read(path) for path in found if os.path.isfile(path)}


WORD = re.compile(r"[A-Za-z_]\w*")


@functools.cache
def words_of(crate):
    return {word for text in sources(crate).values() for word in WORD.findall(text)} | {os.path.basename(path).split(".")[0] for path in sources(crate)}


@functools.cache
def all_words():
    """Every word that the crates, the scripts, the examples and the library have."""
    found = {word for crate in crates() for word in words_of(crate)} | set(crates())
    rows = glob.glob("crates/*/stdin") + glob.glob("crates/program_cases/data/*") + glob.glob("crates/*/edits/**", recursive=True)
    rows += glob.glob("crates/*/must-fail/**", recursive=True)
    others = [path for part in ("bin", "bench", "library", "examples", "packaging") for path in glob.glob(f"{part}/**", recursive=True)]
    for path in rows + others + ["crates.txt", "HANDLES", ".ci/run"]:
        if os.path.isfile(path):
            found |= set(WORD.findall(read(path)))
            found.add(os.path.basename(path).split(".")[0])
    return found


@functools.cache
def contracts():
    """Of each function, by its name, the clauses of the contracts that it has, in whatever crate it stands."""
    found = {}
    for crate in crates():
        for path, text in sources(crate).items():
            if not path.endswith(".rt"):
                continue
            parts = re.split(r"\bfn (\w+)", text)
            for name, body in zip(parts[1::2], parts[2::2]):
                found.setdefault(name, set()).update(re.findall(r"\b(?:ensures|requires|clause)\s+(\w+)", body))
    return found


@functools.cache
def headings(page):
    return {line.lstrip("#").strip() for line in read(page).splitlines() if line.startswith("#")}


def anchor(heading):
    return re.sub(r"[^\w\- ]", "", heading.lower()).replace(" ", "-")


@functools.cache
def rows_in(name):
    """How many rows a table of program_cases has, or the stdin of another program of rows."""
    if name == "program_cases":
        return total_of_rows()
    if name.endswith(".rows"):
        path = f"crates/program_cases/data/{name}"
        lines = [line for line in read(path).splitlines() if not line.startswith(("  ", "text ", "| "))] if os.path.exists(path) else None
    else:
        path = f"crates/{name}/stdin"
        lines = read(path).splitlines() if os.path.exists(path) else None
    return None if lines is None else sum(1 for line in lines if line and not line.startswith("#"))


def total_of_rows():
    return sum(rows_in(os.path.basename(path)) for path in glob.glob("crates/program_cases/data/*.rows"))


def number(text):
    return int(text.replace(",", ""))


def paragraphs(page):
    """The paragraphs and rows of tables of a page outside of fenced blocks, each with the number of its first line."""
    fenced, start, lines = False, 0, []
    for at, line in enumerate(read(page).splitlines(), 1):
        if line.startswith("```"):
            fenced, line = not fenced, ""
        if fenced:
            line = ""
        if not line.strip() or line.startswith(("|", "#")) or re.match(r" *(-|\d+\.) ", line):
            if lines:
                yield start, " ".join(lines)
            lines = []
        if line.strip():
            start = start if lines else at
            lines.append(line.strip())
    if lines:
        yield start, " ".join(lines)


PATH = re.compile(r"(?<![\w/.<-])((?:docs|bench|bin|packaging|examples|library|release|crates|\.ci)/[\w./+-]*\w)(?![\w/]*[*{])")
INSIDE = re.compile(r"`((?:specs|proofs|src|must-fail|edits|data)/[\w./+-]*)`")
SENT = re.compile(r"(docs/\w+\.md|library/README\.md)(?:, \"([^\"]+)\"| under \"([^\"]+)\")")
LINK = re.compile(r"\]\(([^)#]*)(?:#([^)]*))?\)")
CLAUSE = re.compile(r"((?:`\w+`(?:, | and ))*`\w+`) of ((?:`\w+`(?:, | and ))*`\w+`)")
BRACKETS = re.compile(r"\(([^()]*`[^()]*)\)")
COUNT = re.compile(r"([\d,]+\d|\d) rows \(([\w.]+)\)")


def check_paths(page, line, text):
    for path in PATH.findall(text):
        if path.startswith(("bin/true", "bin/sh")):
            continue
        there = os.path.exists(path) or os.path.exists(os.path.join(os.path.dirname(page), path)) or "NAME" in path
        check(there, page, line, f"{path} isn't there")
    for path in INSIDE.findall(text):
        names = [name for name in crates() if re.search(rf"\b{name}\b", text)] or list(crates())
        there = any(glob.glob(f"crates/{name}/{path.rstrip('/')}*") for name in names) or any(glob.glob(f"crates/{name}/{path.rstrip('/')}*") for name in crates())
        check(there, page, line, f"no crate has {path}")
    for target, one, other in SENT.findall(text):
        heading = one or other
        check(os.path.exists(target) and heading in headings(target), page, line, f'{target} has no heading "{heading}"')
    for target, part in LINK.findall(text):
        if target.startswith("http"):
            continue
        path = os.path.normpath(os.path.join(os.path.dirname(page), target)) if target else page
        there = os.path.exists(path) and (not part or part in {anchor(it) for it in headings(path)})
        check(there, page, line, f"the link to {target}{'#' if part else ''}{part} leads nowhere")


def check_clauses(page, line, text, near):
    """The clauses that a paragraph names. Near are the crates that stand in bold at the begin of its section."""
    for clauses, functions in CLAUSE.findall(text):
        clauses, functions = re.findall(r"\w+", clauses.replace(" and ", " ")), re.findall(r"\w+", functions.replace(" and ", " "))
        if not any(name in contracts() for name in functions):
            continue
        for clause in clauses:
            stands = any(clause in contracts().get(name, ()) for name in functions)
            stands = stands or any(name in words_of(crate) and clause in words_of(crate) for crate in crates() for name in functions)
            check(stands, page, line, f"`{clause}` of `{'`, `'.join(functions)}`: no such clause")
    for inside in (part for brackets in BRACKETS.findall(text) for part in brackets.split(";")):
        named = [name for name in crates() if re.search(rf"\b{name}\b", inside)]
        words = re.sub(r"`[^`]*`", "", inside)
        if not named and (page != "docs/PROVED.md" or not near or re.search(r"\b(?!and\b|of\b|in\b)[a-z]+\b", words)):
            continue
        for name in re.findall(r"`(\w+)`", inside):
            there = any(name in words_of(crate) or name == crate for crate in named or near)
            check(there, page, line, f"`{name}` doesn't stand in {', '.join(named or near)}")


@functools.cache
def counted():
    """What else pages count, by the words after the number."""
    return {
        "commands": len(variants("crates/event_text/src/command.rt", "Command")),
        "names, arguments": len(variants("crates/dsl_lib/src/plain.rt", "Plain")),
        "statuses": len(variants("crates/site_run/src/status.rt", "Status")),
    }


def check_names(page, line, text):
    # (what Icinga 2 has and this program hasn't)
    if page == "docs/MIGRATING.md" or text.startswith(">"):
        return
    for name in re.findall(r"`([A-Za-z_]\w*(?:::\w+)*)`", text):
        for part in name.split("::"):
            check(part in all_words(), page, line, f"`{name}` is no word of the sources")


def check_counts(page, line, text):
    row = re.match(r"\| `(\w+(?:\.rows)?)` \| ([\d,]+) \|", text)
    if row and rows_in(row[1]) is not None:
        check(rows_in(row[1]) == number(row[2]), page, line, f"{row[1]} has {rows_in(row[1])} rows and not {row[2]}")
    for count, name in COUNT.findall(text):
        check(rows_in(name) == number(count), page, line, f"{name} has {rows_in(name)} rows and not {count}")
    for count in re.findall(r"([\d,]+\d|\d) (?:command lines \(program_cases|rows in all)", text):
        check(total_of_rows() == number(count), page, line, f"program_cases has {total_of_rows()} rows and not {count}")
    for what, there in counted().items():
        for count in re.findall(rf"(?<![\w,.])([\d,]*\d) {what}", text):
            check(number(count) == there, page, line, f"there are {there} {what} and not {count}")
    rest = COUNT.sub("", text)
    for count in re.findall(r"([\d,]+\d|\d) (?:more )?rows(?! in all)", rest):
        check(False, page, line, f"{count} rows: of which table?")


def table(page, heading, columns=1):
    """The first cells of the rows of the first table below a heading."""
    text = read(page)
    below = text.partition(f"\n## {heading}\n")[2].partition("\n## ")[0]
    rows = [line.strip().strip("|").split(" | ") for line in below.splitlines() if line.startswith("|")]
    return [[cell.strip() for cell in row[:columns]] for row in rows[2:]]


def variants(path, name):
    body = re.search(rf"enum {name} \{{\n(.*?)\n\}}", read(path), re.S)
    return re.findall(r"^    (\w+)", re.sub(r"^\s*(//|#).*$", "", body[1], flags=re.M), re.M) if body else []


def same(page, what, listed, there):
    for name in sorted(set(there) - set(listed)):
        check(False, page, 1, f"{what}: {name} isn't listed")
    for name in sorted(set(listed) - set(there)):
        check(False, page, 1, f"{what}: there is no {name}")
    check(True, page, 1, "")


def check_snippets(page):
    """A block that names a file of the sources has lines that stand there so."""
    for number, kind, lines in blocks_of(page):
        if len(kind) == 2 and kind[1].startswith("crates/"):
            there = os.path.exists(kind[1]) and "\n".join(lines) in read(kind[1])
            check(there, page, number, f"{kind[1]} has no such lines")


def blocks_of(page):
    """Of each fenced block the number of its first line, the words after the fence, and its lines."""
    block = None
    for number, line in enumerate(read(page).splitlines(), 1):
        if line.startswith("```"):
            if block:
                yield block
                block = None
            else:
                block = (number + 1, line[3:].split(), [])
        elif block:
            block[2].append(line)


def check_tables():
    """The tables that list what the sources have."""
    page = "docs/ARCHITECTURE.md"
    rows = [row for row in table(page, "The crates, lowest first", 3) if row[0] in crates()]
    same(page, "the crates", [row[0] for row in rows], crates())
    for name, _, cited in rows:
        listed = {it.strip("` ") for it in cited.split(",")} - {"-"}
        check(listed <= set(crates()[name]) | {"indexmap", "jiff", "libc", "anyhow", "atomic_table"}, page, 1, f"{name} doesn't cite {', '.join(sorted(listed - set(crates()[name])))}")
    kinds = variants("crates/site_base/src/diag_kind.rt", "DiagKind")
    same("docs/FORMATS.md", "the kinds of diagnostics", [name.strip("` ") for row in table("docs/FORMATS.md", "Kinds of diagnostics") for name in row[0].split(",")], kinds)
    same("bin/explain", "the kinds of diagnostics", re.findall(r'^    "(\w+)": \(', read("bin/explain"), re.M), kinds)
    faults = variants(next(path for path, text in sources("event_text").items() if "enum LineFault" in text), "LineFault")
    text = read("docs/FORMATS.md")
    same("docs/FORMATS.md", "the faults of a command line", re.findall(r"^\| `?(\w+)`? \|", text.partition("The fault of a line")[2].partition("## ")[0], re.M)[1:], faults)
    commands = set(re.findall(r'"((?:PROCESS|SCHEDULE|ACKNOWLEDGE|REMOVE|DEL|ENABLE|DISABLE)_[A-Z_]+)"', "".join(text for path, text in sources("event_text").items() if path.endswith(".rt"))))
    same("docs/FORMATS.md", "the commands", set(re.findall(r"`((?:PROCESS|SCHEDULE|ACKNOWLEDGE|REMOVE|DEL|ENABLE|DISABLE)_[A-Z_]+)", text)), commands)
    statuses = variants(next(path for path, text in sources("site_run").items() if "enum Status" in text), "Status")
    for page, heading in (("docs/OPERATING.md", "When it ends"),):
        same(page, "the statuses", [row[0].split()[-1] for row in table(page, heading)], statuses)
    text = read("docs/ARCHITECTURE.md").partition("| wrong body | edit |")[2]
    listed = {f"{crate}/{name}" for name, crate in re.findall(r"`([\w-]+)` \((\w+)\)", text.partition("\n\n")[0])}
    several = re.findall(r"\w+", re.search(r"The leaves with several are ([\w, ]+)\.", " ".join(text.split()))[1].replace(" and ", " "))
    edits = {f"{path.split('/')[1]}/{os.path.basename(path)[:-5]}" for path in glob.glob("crates/*/must-fail/*.edit")}
    same("docs/ARCHITECTURE.md", "the must-fail edits", listed | {it for it in edits if it.split("/")[0] in several}, edits)
    attributes = set(re.findall(r'"(\w+)"', read("crates/object_types/src/attribute.rt")))
    text = read("docs/OBJECTS.md").partition("## Every type")[2].partition("## Inert types")[0]
    listed = {name.strip("` ") for row in re.findall(r"^\| ([a-z][\w, `]*) \|", text, re.M) for name in row.split(",")} - {"attribute"}
    same("docs/OBJECTS.md", "the attributes", listed, attributes)


SECTIONS = {
    "COMMON": "Every type", "HOST": "Host", "SERVICE": "Service", "HOST_GROUP": "HostGroup, ServiceGroup, UserGroup",
    "COMMAND": "CheckCommand, NotificationCommand, EventCommand", "USER": "User", "NOTIFICATION": "Notification",
    "DEPENDENCY": "Dependency", "SCHEDULED_DOWNTIME": "ScheduledDowntime", "TIME_PERIOD": "TimePeriod",
}
KINDS = {
    "Text": "string", "Bool": "boolean", "Dict": "dictionary", "Count": "number", "PositiveSeconds": "seconds above 0", "Seconds": "seconds",
    "Command": "command", "States": "states", "NoteKinds": "kinds", "Times": "times", "Ranges": "ranges",
}


def in_words(kind, of):
    """How a table says what an attribute takes."""
    if kind == "Name":
        return f"an {of}" if of[0] in "AEIOU" else f"a {of}"
    if kind == "Names":
        return f"{of}s"
    if kind == "Service":
        return f"a service of `{re.sub(r'(?<!^)(?=[A-Z])', '_', of).lower()}`"
    return KINDS[kind]


def check_schema():
    """The tables of attributes: each attribute of a type with what it takes and what holds if it isn't set, in the order of the sources."""
    page, text = "docs/OBJECTS.md", read("crates/object_types/src/schema.rt")
    names = dict(re.findall(r'Attribute::(\w+) => "(\w+)"', read("crates/object_types/src/attribute.rt")))
    row = r"(\w+): (\w+)(?:\((?:\w+::)?\$?(\w+)\))?, (\w+)(?:\((\w+)\))?;"
    shared = re.findall(row, text.partition("macro_rules! checkable_rows")[2].partition("static")[0].partition("$own)*")[2])
    for static, macro, body in re.findall(r"static (\w+): \[SchemaRow; \d+\] = (\w+)! \{\n(.*?)\n\};", text, re.S):
        if static not in SECTIONS:
            continue
        rows = re.findall(row, body)
        if static == "HOST":
            rows = [(*it[:2], it[2].replace("groups", "HostGroup"), *it[3:]) for it in shared] + rows
        wanted = {}
        for attribute, kind, of, unset, value in rows:
            default = {"Missing": "needed", "Nothing": "none", "GoodStates": "`OK`"}.get(unset, value)
            wanted[names[attribute]] = (in_words(kind, of), default)
        listed = {}
        for cells in table(page, SECTIONS[static], 3):
            for name in cells[0].split(","):
                listed[name.strip("` ")] = (cells[1], cells[2])
        same(page, f"the attributes of {SECTIONS[static]}", listed, wanted)
        for name in listed.keys() & wanted.keys():
            (kind, default), (told, said) = wanted[name], listed[name]
            fits = told.split(", read as")[0] in (kind, "groups of the same type" if kind.endswith("Groups") else kind)
            check(fits, page, 1, f"{name} of {SECTIONS[static]} takes {kind} and not {told}")
            check(said.startswith(default) or (static == "COMMON" and name == "name"), page, 1, f"{name} of {SECTIONS[static]} is {default} unless it is set, and not {said}")


def check_library():
    """The table of library/README.md: the variables of each check command, and the values that they have unless they are set."""
    page, text = "library/README.md", read("library/README.md")
    with tempfile.TemporaryDirectory() as room:
        with open(f"{room}/all.conf", "w", encoding="utf-8") as file:
            file.write(f'const PluginDir = "/p"\ninclude <itl>\ninclude "{os.getcwd()}/library/commands.conf"\n')
        listing = subprocess.run(["release/icinga_site", "objects", f"{room}/all.conf"], stdout=subprocess.PIPE, text=True, check=True).stdout
    commands = {}
    for name, value in re.findall(r'^CheckCommand "([^"]+)" (.*)$', listing, re.M):
        commands[name] = json.loads(value)
    rows = {cells[0].strip("` "): cells[2] for cells in ([it.strip() for it in row.split("|")[1:-1]] for row in re.findall(r"^\| `.*\|$", text, re.M))}
    same(page, "the commands", rows, commands)
    for name in rows.keys() & commands.keys():
        listed = {one or other: value for one, other, value in re.findall(r"(?:\*\*`(\w+)`\*\*|`(\w+)`)(?: \(((?:[^()]|\([^)]*\))*)\))?", rows[name])}
        variables = commands[name].get("vars", {})
        used = set(re.findall(r"\$([a-z]\w*)\$", json.dumps([commands[name].get("arguments"), commands[name]["command"], variables])))
        same(page, f"the variables of {name}", listed, {it for it in used if it not in ("address", "address6")} | set(variables))
        for variable, value in listed.items():
            there = variables.get(variable)
            there = "" if there is None else str(there).lower() if isinstance(there, bool) else str(there)
            check(value == there, page, 1, f"{variable} of {name} is {there or 'not set'} and not {value or 'left out'}")


for page in pages:
    near = []
    check_snippets(page)
    for line, text in paragraphs(page):
        bold = re.match(r"(?:\*\*\w+\*\*(?:, | and |,)?)+", text)
        if text.startswith("#"):
            near = []
        elif bold:
            near = [name for name in re.findall(r"\*\*(\w+)\*\*", text.partition(". ")[0]) if name in crates()]
        check_paths(page, line, text)
        check_clauses(page, line, text, near)
        check_names(page, line, text)
        check_counts(page, line, text)
if whole:
    check_tables()
    check_schema()
    check_library()
print(f"{checked} claims checked, {wrong} don't hold")
sys.exit(1 if wrong else 0)
PYTHON
