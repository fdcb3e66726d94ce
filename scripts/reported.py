#!/usr/bin/env python3
"""Whether each rule is reported as examples/report/rules.txt says: scripts/reported.py --check

The head of that file has its form. What is expected of `--format text` and `--format json` is made here, from the marked place,
the data and the rule's message in docs/rulebook.txt, by the forms that `Entry` of `report_forms` describes. --check prints each
line that differs; its status is then 1, also where a rule that a stage tells is missing, and where ./graphql-report is not built
from these sources, so that nothing is run.
"""
import difflib
import json
import os
import re
import subprocess
import sys
import tempfile

TOP = os.path.dirname(os.path.dirname(os.path.abspath(__file__)))
MARKS = "①②③④"
NEVER = {"FloatCoercionError", "RecursionError"}
NAMED = {"Name", "Option<Name>", "Type", "Node<Type>"}
ENVIRONMENT = dict(os.environ, GRAPHQL_CHECKED_BUILD="never", LC_ALL="C.UTF-8")


def read(path):
    """The text of a file of the repository."""
    with open(os.path.join(TOP, path), encoding="utf-8") as file:
        return file.read()


def rulebook():
    """The message of each rule, and the types of its data by their names, in order."""
    rules = {}
    for block in re.split(r"\n\s*\n", read("docs/rulebook.txt")):
        name = re.match(r"(\w+)\n  ", block)
        if name:
            data = re.search(r"^  data     (.*(?:\n           .*)*)", block, re.M)
            pairs = re.findall(r"^\s*(\w+): (\S+)", data[1], re.M) if data else []
            rules[name[1]] = re.search(r"^  message  (.*)", block, re.M)[1], dict(pairs)
    return rules


class Text:
    """A text with its marks taken out: the place of the fault, and the offsets before which marks are."""

    def __init__(self, path, lines):
        self.path, self.plain, self.at = path, "", {}
        for character in "".join(line + "\n" for line in lines):
            if character in MARKS + "«»":
                self.at[character] = len(self.plain)
            else:
                self.plain += character

    def position(self, offset):
        """The line and the column of an offset, from 1."""
        before = self.plain[:offset]
        return before.count("\n") + 1, offset - before.rfind("\n")


class Case:
    """A rule, its texts, its data and what belongs to it."""

    def __init__(self, block):
        lines = [line for line in block.split("\n") if not line.startswith("#")]
        self.rule, self.data, self.related, self.hint = lines[0], {}, [], None
        self.told = [self.rule]
        self.schema = Text("schema.graphql", [line[2:] for line in lines if line.startswith("s ")])
        self.document = Text("document.graphql", [line[2:] for line in lines if line.startswith("d ")])
        for line in lines[1:]:
            name, colon, value = line.partition(": ")
            if line[0] in MARKS:
                self.related.append((line[0], line[2:]))
            elif name == "help":
                self.hint = value
            elif name == "told":
                self.told = value.split()
            elif colon and not line.startswith(("s ", "d ")):
                self.data[name] = value

    def texts(self):
        """The texts that there are."""
        return [text for text in (self.schema, self.document) if text.plain]

    def place_of(self, mark):
        """The text that has the mark."""
        return next(text for text in self.texts() if mark in text.at)

    def others(self):
        """Path, line, column and words of each place that belongs to it."""
        for mark, words in self.related:
            text = self.place_of(mark)
            yield (text.path, *text.position(text.at[mark]), words)

    def message(self, template):
        """The message, filled with the data."""
        if "message" in self.data:
            return self.data["message"]
        return re.sub(r"\{(\w+(?:\.\w+)?)\}", lambda found: ".".join(self.data[name] for name in found[1].split(".")), template)

    def text_lines(self, message):
        """What `text` tells."""
        text = self.place_of("«")
        begin, end = text.at["«"], text.at["»"]
        line, column = text.position(begin)
        whole = text.plain.split("\n")[line - 1]
        width = max(1, min(end - begin, len(whole) - column + 1))
        first, last = max(0, column - 81), column - 1 + (width + 80 if width <= 80 else 80)
        shown = ("…" if first else "") + whole[first:last] + ("…" if last < len(whole) else "")
        yield f"{text.path}:{line}:{column}: error[{self.rule}]: {message}"
        yield f"{line} | {shown}"
        yield f"{' ' * len(str(line))} | {' ' * (column - 1 - first + (first > 0))}{'^' * min(width, 80)}"
        for path, line, column, words in self.others():
            yield f"  = {path}:{line}:{column}: {words}"
        if self.hint:
            yield f"  = help: {self.hint}"

    def object(self, message, types):
        """What `json` tells."""
        text = self.place_of("«")
        begin, end = text.at["«"], text.at["»"]
        (line, column), (end_line, end_column) = text.position(begin), text.position(end)
        return {
            "path": text.path,
            "line": line,
            "column": column,
            "end": {"line": end_line, "column": end_column},
            "offset": begin,
            "length": end - begin,
            "severity": "error",
            "rule": self.rule,
            "message": message,
            "related": [dict(zip(("path", "line", "column", "words"), other)) for other in self.others()],
            "hint": self.hint,
            "fields": {name: self.data[name] for name, type in types.items() if type in NAMED and name in self.data},
        }


def rule_in(entry):
    """The rule that an entry of either form tells."""
    return json.loads(entry[0])["rule"] if entry[0].startswith("{") else re.search(r": error\[(\w+)\]: ", entry[0])[1]


def printed(folder, form, case):
    """The entries that the program prints of the case, a list of lines each."""
    for text in case.texts():
        with open(os.path.join(folder, text.path), "w", encoding="utf-8") as file:
            file.write(text.plain)
    words = [os.path.join(TOP, "graphql-report"), "--format", form, "--schema", "schema.graphql"]
    words += ["document.graphql"] if case.document.plain else []
    done = subprocess.run(words, cwd=folder, env=ENVIRONMENT, stdin=subprocess.DEVNULL, capture_output=True, text=True)
    if done.returncode == 70:
        return None
    entries = []
    for line in done.stdout.splitlines():
        if form == "json" and "rule" not in json.loads(line):
            continue  # a record of a document, or the summary
        if form == "json" or re.search(r": error\[\w+\]: ", line):
            entries.append([])
        entries[-1].append(line)
    return entries


def differences(case, rules, folder):
    """The lines in which what is printed of the case differs from what is wanted. None where the program is not built."""
    template, types = rules[case.rule]
    message = case.message(template)
    for form, wanted in (("text", list(case.text_lines(message))), ("json", [json.dumps(case.object(message, types), sort_keys=True)])):
        entries = printed(folder, form, case)
        if entries is None:
            return None
        found = [line for entry in entries if rule_in(entry) == case.rule for line in entry]
        if form == "json":
            found = [json.dumps(json.loads(line), sort_keys=True) for line in found]
        wanted, found = case.told + wanted, list(map(rule_in, entries)) + found
        if found != wanted:
            return list(difflib.unified_diff(wanted, found, "wanted", "printed", lineterm="", n=1))
    return []


def main():
    """Compares each rule."""
    rules = rulebook()
    blocks = [block for block in re.split(r"\n\n+", read("examples/report/rules.txt").strip()) if not block.startswith("#")]
    common, *cases = map(Case, blocks)
    wrong = sorted(set(rules) - NEVER - {case.rule for case in cases})
    for rule in wrong:
        print(f"reported: {rule} is not in examples/report/rules.txt")
    with tempfile.TemporaryDirectory() as folder:
        for case in cases:
            if not case.schema.plain:
                case.schema = common.schema
            lines = differences(case, rules, folder)
            if lines is None:
                print("reported: graphql-report is not built from these sources, so nothing was run; ./graphql-report builds it")
                return 1
            if lines:
                wrong.append(case.rule)
                print(f"reported: {case.rule}")
                print("\n".join(lines))
    print(f"reported: {len(cases)} rules, {len(wrong)} wrong")
    return 1 if wrong else 0


if __name__ == "__main__":
    sys.exit(main())
