#!/usr/bin/env python3
"""Measures of how the code reads: scripts/measures.py [--list] [--check]

Prints, of all crates, rows and tests among them: functions with more than five parameters; in how many forms the functions of
docs/RULES.md tell what is wrong; private clauses of more than 160 characters; functions of more than 40 lines, and which of them
are no tables. --list prints each of these with its place. --check prints which measure is past its bound; its status
is then 1.

A function of 40 lines has 40 lines between its braces, without clauses. It is a table if it is one `match` whose arms only make or
name a value: none has a condition, a loop, or another `match`. `self` counts as a parameter. A clause is counted with its keyword
and its label, as on one line; it is private unless it is one of what the users' crates give.
"""
import re
import sys

import believed
import rulebook
import rules
import sources

PARAMETERS, CHARACTERS, LINES = 5, 160, 40

# What may be: the number of functions with many parameters, of forms, of long clauses, of long functions that are no tables.
BOUNDS = {"parameters": 10, "forms": 1, "clauses": 120, "long": 0}


class Found:
    """A function with the file in which it stands, its parameters, its result, and its body."""

    def __init__(self, path, text, bare, function):
        self.path, self.function, self.name = path, function, function.name
        head = sources.FUNCTION.match(bare, function.start)
        at = bare.index("(", past_generics(bare, head.end()))
        end = sources.closing(bare, at)
        self.parameters = split_at_commas(" ".join(bare[at + 1 : end - 1].split()))
        result = re.match(r"\s*->\s*(.*?)\s*(?=\b(?:requires|ensures|follows|decreases|where)\b|\{|;|$)", bare[end : function.end], re.S)
        self.result = " ".join(result.group(1).split()) if result else ""
        opened = body_start(bare, end, function.end)
        self.body = text[opened + 1 : function.end - 1].strip("\n").split("\n") if opened else []
        self.bare_body = bare[opened + 1 : function.end - 1] if opened else ""

    def where(self):
        return f"{self.path}:{self.function.line}: {self.name}"

    def is_table(self):
        """Whether the body is one `match` whose arms make or name values."""
        text = re.sub(r"//[^\n]*", "", self.bare_body).strip()
        return text.startswith("match ") and text.endswith("}") and not re.search(r"\b(?:if|for|while|loop)\b|\bmatch\b", text[len("match ") :])


def past_generics(bare, at):
    """The place after the generics that begin there, if any do."""
    if bare[at : at + 1] != "<":
        return at
    depth = 0
    while True:
        depth += {"<": 1, ">": -1}.get(bare[at], 0) if bare[at - 1 : at + 1] not in ("->", "=>") else 0
        at += 1
        if depth == 0:
            return at


def body_start(bare, at, end):
    """Where the body opens: the first brace that is none of a clause."""
    while True:
        word = re.compile(r"\b(?:requires|ensures|follows|decreases)\b|[{;]").search(bare, at, end)
        if word is None or word.group(0) == ";":
            return None
        if word.group(0) == "{":
            return word.start()
        at = sources.closing(bare, bare.index("{", word.end()))


def split_at_commas(text):
    """The parts of a list of parameters."""
    parts, depth, current = [], 0, ""
    for number, sign in enumerate(text):
        if sign in "([{<" or (sign == ">" and text[number - 1] == "-"):
            depth += sign != ">"
        elif sign in ")]}>":
            depth -= 1
        if sign == "," and depth == 0:
            parts.append(current.strip())
            current = ""
        else:
            current += sign
    return [part for part in parts + [current.strip()] if part]


def all_functions():
    """The functions of all sources."""
    for path in sources.paths("crates/*/src/*.rt"):
        text = sources.read(path)
        bare = sources.masked(text)
        for function in sources.functions(text, bare):
            yield Found(path, text, bare, function)


# ---- forms of rules

# A list of the area's own faults: each area has one type of them, under the name that its crate gives it.
LIST = r"\w+: &mut Vec<(?:Fault|Breach|\(Option<SourceSpan>, BuildError\))>"

# What a function is given, or None for anything; what it gives.
FORMS = [
    ("looks, and tells into the list that it is given", LIST, r"Result<\(\), AllocError>"),
    ("gives the fault or none, or no memory", None, r"Result<Option<Fault>, AllocError>"),
    ("gives the breach or none, or no memory", None, r"Result<Option<(?:Breach|\(Option<SourceSpan>, BuildError\))>, AllocError>"),
    ("gives the breach or none", None, r"Option<(?:Breach|\(Option<SourceSpan>, BuildError\))>"),
    ("gives the fault, or no memory", None, r"Result<Fault, AllocError>"),
]


def form(found):
    """The form in which a function tells what is wrong."""
    for name, parameter, result in FORMS:
        if re.fullmatch(result, found.result) and (parameter is None or any(re.fullmatch(parameter, it) for it in found.parameters)):
            return name
    return f"another: ({', '.join(found.parameters)}) -> {found.result}"


def rule_functions(functions):
    """The functions of docs/RULES.md, each once, with their forms."""
    places = {(found.path, found.function.start): found for found in functions}
    code, deciding = rules.Code(), {}
    for enum, _, crates, _ in rules.ENUMS:
        for entry in rulebook.entries()[enum]:
            if "never" not in entry.lines:
                for node in rules.functions(code, entry.name, crates):
                    deciding[(node.path, node.function.start)] = places[(node.path, node.function.start)]
    forms = {}
    for found in deciding.values():
        forms.setdefault(form(found), []).append(found)
    return forms


# ---- the measures


def long_clauses(functions):
    """The private clauses that are too long, with their lengths."""
    public = {(clause.path, clause.line) for clause in believed.public_clauses(sources.Library())}
    for found in functions:
        for kind, label, text, line in found.function.clauses:
            words = " ".join(text.split())
            length = len(f"{kind} {label + ' ' if label else ''}{{ {words} }}")
            if length > CHARACTERS and (found.path, line) not in public:
                yield length, f"{found.path}:{line}: {found.name}"


def measures():
    """The measures: each with its number, what it is of, and the lines that tell where."""
    functions = list(all_functions())
    many = [found for found in functions if len(found.parameters) > PARAMETERS]
    forms = rule_functions(functions)
    clauses = sorted(long_clauses(functions), reverse=True)
    long = sorted((found for found in functions if len(found.body) > LINES), key=lambda found: -len(found.body))
    no_tables = [found for found in long if not found.is_table()]
    yield "functions", len(functions), "functions", []
    yield "parameters", len(many), f"functions with more than {PARAMETERS} parameters", [
        f"{len(found.parameters)} parameters: {found.where()}" for found in sorted(many, key=lambda it: -len(it.parameters))]
    yield "forms", len(forms), f"forms of the {sum(map(len, forms.values()))} functions of rules", [
        f"{len(group):3} {name}: {', '.join(sorted({it.path.split('/')[1] for it in group}))}" for name, group in sorted(forms.items(), key=lambda it: -len(it[1]))]
    yield "clauses", len(clauses), f"private clauses of more than {CHARACTERS} characters", [f"{length} characters: {where}" for length, where in clauses]
    yield "tables", len(long) - len(no_tables), f"tables of more than {LINES} lines", [
        f"{len(found.body)} lines: {found.where()}" for found in long if found.is_table()]
    yield "long", len(no_tables), f"functions of more than {LINES} lines that are no tables", [
        f"{len(found.body)} lines: {found.where()}" for found in no_tables]


def main(words):
    past = []
    for key, number, name, lines in measures():
        bound = f", at most {BOUNDS[key]} wanted" if key in BOUNDS else ""
        print(f"{number:5} {name}{bound}")
        if "--list" in words:
            print("".join(f"      {line}\n" for line in lines), end="")
        if number > BOUNDS.get(key, number):
            past.append(name)
    return 1 if past and "--check" in words else 0


if __name__ == "__main__":
    sys.exit(main(sys.argv[1:]))
