#!/usr/bin/env python3
"""Whether the examples print what they say: scripts/examples.py [--check] [--write] [--program FILE FOLDER..]

A run is a command and what it prints. A line that begins with `$ ` is a command, for bash, at the top of the repository; the
lines after it are what it prints, to standard output and standard error; the last may be its status in brackets, `[1]`, which
is 0 where none stands. A line that begins with `# ` is a comment. Runs are in examples/*/runs.txt, and in README.md, GUIDE.md and
CONTRIBUTING.md in each block that begins with ```console.

The form is like that of cram's tests. But cram takes only indented lines for runs, which those of pages are not, and it compares none of
the places that pages name.

--check runs them all and prints each line that differs; its status is then 1. It also compares the places that these pages
name, as in `examples/refused/unknown_field.graphql:4:5`: each must be that of a fault which one of the runs prints. Runs need
the programs that `rt ci` leaves or `./graphql-checked` and `./graphql-report` keep; where one is not built from these sources, it
says so, leaves out its runs, and the status is 1. Lines of `--format json` and `--batch` are read back as JSON, and logs of
`--format sarif`, up to a pipe to python3, have what the schema of SARIF 2.1.0 requires of their members. Each fault that
examples/mistakes prints has a place and a line of help. --write puts what is printed into examples/*/runs.txt, which must then be read:
an expected line comes from the specification, not from the program.

--program runs FILE wherever a command has `./graphql-checked`, and of all runs those of examples/FOLDER alone that have it.
"""

import concurrent.futures
import difflib
import glob
import json
import os
import re
import shlex
import subprocess
import sys

TOP = os.path.dirname(os.path.dirname(os.path.abspath(__file__)))
PAGES = ["README.md", "GUIDE.md", "CONTRIBUTING.md"]
PROGRAMS = ["graphql-checked", "graphql-report"]
ENVIRONMENT = dict(os.environ, GRAPHQL_CHECKED_BUILD="never", LC_ALL="C.UTF-8")


class Run:
    """A command, the lines that it is to print, and its status."""

    def __init__(self, path, line, command):
        self.path, self.line, self.command, self.wanted = path, line, command, []

    def lines(self):
        """What it prints, with its status."""
        done = subprocess.run(["bash", "-c", self.command], cwd=TOP, env=ENVIRONMENT, stdin=subprocess.DEVNULL, stdout=subprocess.PIPE, stderr=subprocess.STDOUT, timeout=120)
        found = done.stdout.decode("utf-8", "replace").split("\n")
        found = found[:-1] if found[-1] == "" else found
        return found + ([f"[{done.returncode}]"] if done.returncode else [])


def runs_of(path, first, text):
    """The runs of a text that begins at a line of a file."""
    found, inside = [], False
    for number, line in enumerate(text.split("\n"), first):
        if line.startswith("$ "):
            found.append(Run(path, number, line[2:]))
            inside = True
        elif line.startswith("# "):
            inside = False
        elif inside:
            found[-1].wanted.append(line)
    for run in found:
        while run.wanted and run.wanted[-1] == "":
            run.wanted.pop()
    return found


def read(path):
    """The text of a file of the repository."""
    with open(os.path.join(TOP, path), encoding="utf-8") as file:
        return file.read()


def example_files():
    """The files of runs."""
    return sorted(os.path.relpath(path, TOP) for path in glob.glob(os.path.join(TOP, "examples", "*", "runs.txt")))


def pages():
    """The pages that are there."""
    return [path for path in PAGES if os.path.exists(os.path.join(TOP, path))]


def all_runs():
    """All runs, those of the examples first."""
    found = []
    for path in example_files():
        found += runs_of(path, 1, read(path))
    for path in pages():
        text = read(path)
        for block in re.finditer(r"^```console\n(.*?)^```$", text, re.M | re.S):
            found += runs_of(path, text.count("\n", 0, block.start(1)) + 1, block.group(1))
    return found


def runs_with(program, folders):
    """The runs of these folders, with another program in place of `./graphql-checked`."""
    found = []
    for folder in folders:
        path = os.path.join("examples", folder, "runs.txt")
        found += [run for run in runs_of(path, 1, read(path)) if "./graphql-checked " in run.command]
    for run in found:
        run.command = run.command.replace("./graphql-checked ", shlex.quote(program) + " ")
    return found


def places(run, lines):
    """The places of the faults that a run prints: file, line and column, counted from 1, columns in bytes where only an offset
    is printed."""
    words = shlex.split(run.command.split("|")[0].split(";")[0])
    texts = [word for word in words if word.endswith(".graphql")]
    texts = texts[1:] + texts[:1]
    for line in lines:
        yield from re.findall(r"^(examples/[\w/.-]+:\d+:\d+): ", line)
        place = re.match(r"(\d+):(\d+): ", line)
        if place and 1 <= int(place.group(1)) <= len(texts):
            path, offset = texts[int(place.group(1)) - 1], int(place.group(2))
            before = read(path).encode()[:offset]
            line, column = before.count(b"\n") + 1, offset - before.rfind(b"\n")
            yield f"{path}:{line}:{column}"


def is_built(program):
    """Whether the program is built from these sources."""
    words = {"graphql-checked": ["README.md", "README.md"], "graphql-report": ["--schema", "README.md"]}[program]
    return subprocess.run([f"./{program}", *words], cwd=TOP, env=ENVIRONMENT, stdin=subprocess.DEVNULL, capture_output=True).returncode == 1


def is_json(line):
    """Whether the line is JSON."""
    try:
        json.loads(line)
        return True
    except ValueError:
        return False


def unread(run, lines):
    """The lines of a run that are to be JSON, and are not."""
    wanted = re.search(r"--format json|--batch", run.command)
    return [line for line in lines if wanted and line.startswith("{") and not is_json(line)]


def unfit(run):
    """What is wrong with the log of a run that is to print one of SARIF."""
    if "--format sarif" not in run.command:
        return []
    command = run.command.split(" | python3")[0]
    done = subprocess.run(["bash", "-c", command], cwd=TOP, env=ENVIRONMENT, stdin=subprocess.DEVNULL, stdout=subprocess.PIPE, stderr=subprocess.DEVNULL, timeout=120)
    try:
        return list(unfit_members(json.loads(done.stdout)))
    except (ValueError, KeyError, TypeError) as error:
        return [f"{type(error).__name__}: {error}"]


def unfit_members(log):
    """What the schema of SARIF 2.1.0 refuses of a log. A member that it requires and that is not there is a KeyError."""
    if log["version"] != "2.1.0":
        yield "the version is not 2.1.0"
    for run in log["runs"]:
        if not isinstance(run["tool"]["driver"]["name"], str):
            yield "the name of the driver is no string"
        if run["columnKind"] not in ("utf16CodeUnits", "unicodeCodePoints"):
            yield f"a kind of columns: {run['columnKind']}"
        for result in run["results"]:
            if result["level"] not in ("none", "note", "warning", "error"):
                yield f"a level: {result['level']}"
            ids = [place["id"] for place in result["relatedLocations"]]
            if len(set(ids)) != len(ids) or any(number < -1 for number in ids):
                yield f"the numbers of related locations: {ids}"
            texts = [holder["message"]["text"] for holder in (result, *result["relatedLocations"])] + [result["ruleId"]]
            if not all(isinstance(text, str) for text in texts):
                yield f"no strings: {texts}"
            for place in (*result["locations"], *result["relatedLocations"]):
                yield from unfit_place(place["physicalLocation"])


def unfit_place(place):
    """What is wrong with a physical location: its path is to be a URI without a scheme, its lines and columns count from 1."""
    uri, region = place["artifactLocation"]["uri"], place.get("region")
    if not re.fullmatch(r"(?:[A-Za-z0-9._~/-]|%[0-9A-F]{2})+", uri):
        yield f"no path of a URI: {uri}"
    if region is None:
        return
    start = (region["startLine"], region["startColumn"])
    end = (region.get("endLine", start[0]), region.get("endColumn", start[1]))
    if min(start + end) < 1 or end < start:
        yield f"a region: {region}"


def unhelped(run, lines):
    """The faults of a run of examples/mistakes that have no place, but those of a whole schema, or no line of help."""
    if not run.path.startswith("examples/mistakes/"):
        return []
    heads = [number for number, line in enumerate(lines) if re.search(r"\berror\[\w+\]: ", line)]
    parts = [lines[begin:end] for begin, end in zip(heads, heads[1:] + [len(lines)])]
    placed = re.compile(r"[^:]+(:\d+:\d+|(?=: error\[QueryRootOperationType\])): error\[")
    return [part[0] for part in parts if not placed.match(part[0]) or not any(line.startswith("  = help: ") for line in part)]


def rewritten(path):
    """A file of runs with what they print."""
    lines, text = read(path).split("\n"), read(path)
    for run in reversed(runs_of(path, 1, text)):
        lines[run.line : run.line + len(run.wanted)] = run.lines()
    return "\n".join(lines)


def main(words):
    if "--program" in words:
        at = words.index("--program")
        return compared(runs_with(os.path.abspath(words[at + 1]), words[at + 2 :]), [])
    missing = [program for program in PROGRAMS if not is_built(program)]
    for program in missing:
        print(f"examples: {program} is not built from these sources, so its runs are left out; ./{program} builds it")
    if missing and "--write" in words:
        return 1
    if "--write" in words:
        for path in example_files():
            text = rewritten(path)
            with open(os.path.join(TOP, path), "w", encoding="utf-8") as file:
                file.write(text)
        return 0
    wrong = compared([run for run in all_runs() if not any(program in run.command for program in missing)], [] if missing else pages())
    return (wrong or bool(missing)) if "--check" in words else 0


def compared(runs, told):
    """Runs them, and prints what differs, and which places on these pages are those of no fault: 1 where there is anything."""
    wrong, known = 0, set()
    with concurrent.futures.ThreadPoolExecutor(4) as pool:
        printed = list(pool.map(Run.lines, runs))
    for run, found in zip(runs, printed):
        known |= set(places(run, found))
        for line in unread(run, found):
            wrong += 1
            print(f"{run.path}:{run.line}: prints what is not JSON: {line}")
        for what in unfit(run):
            wrong += 1
            print(f"{run.path}:{run.line}: prints what is not SARIF: {what}")
        for line in unhelped(run, found):
            wrong += 1
            print(f"{run.path}:{run.line}: has no place or no help: {line}")
        if found != run.wanted:
            wrong += 1
            print(f"{run.path}:{run.line}: $ {run.command}")
            print("\n".join(line for line in difflib.unified_diff(run.wanted, found, "wanted", "printed", lineterm="", n=1)))
    for path in told:
        for place in sorted(set(re.findall(r"\b(examples/[\w/.-]+:\d+:\d+)", read(path)))):
            if place not in known:
                wrong += 1
                print(f"{path}: {place} is the place of no fault that a run prints")
    print(f"examples: {len(runs)} runs, {wrong} wrong")
    return 1 if wrong or not runs else 0


if __name__ == "__main__":
    sys.exit(main(sys.argv[1:]))
