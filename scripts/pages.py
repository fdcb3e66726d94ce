#!/usr/bin/env python3
"""Whether the pages say what is there: scripts/pages.py [--check] [--clauses] [--names]

--check prints what is wrong, a line each, and its status is then 1: README.md has more than 150 lines or 900 words, or all pages
(*.md at the top and in docs/) have more than 22,000 words; a page, a page of a crate (crates/**/*.md), a list of docs/ (*.txt), or a
comment of a crate's src/, specs/ or proofs/ or of a script has a word that the last table of CONTRIBUTING.md refuses; a relative link of a
page leads to no file; a name that reads as a crate of the repository is not in crates.txt; one in backticks that reads as a file
(`name.rt`, `Name.antt`, `name.rows`, `name.edit`, `name.py`) is the name of no file; docs/MAP.md says nothing of a crate of
crates.txt; a line of a block after `<!-- from PATH -->` is not in that file, after the lines before it; a public clause is longer
than 160 characters. crates/README.md is read as a page is, but its words are not counted: they are those of the sources.

What reads as a crate: a word that begins with `graphql_` and is none of the header for C; one that begins as the crates of an area do (`tree_`, `read_`, ..), if the
sources have nothing else of that name, neither an item, a definition nor a file; and, whatever it begins with, a name in backticks
in a heading of docs/PROMISES.md, or in a column of a table whose head has the word crate or crates.

--clauses prints the clauses that are too long, the longest first. --names prints the names of definitions, items, clauses and locals of
crates that have a word which pages must not have, as `stands_in` and `StandsIn`: --check refuses them too.
"""
import io
import os
import re
import sys
import tokenize

import believed
import sources
from sources import TOP

LINES = 150
CHARACTERS = 160
README_WORDS, ALL_WORDS = 900, 22000

# the line after which CONTRIBUTING.md has the words that pages and doc comments must not have.
WORDS = "<!-- the words that scripts/pages.py refuses -->"

# The page that a script makes from the heads of the crates: its words are not counted.
PLAN = "crates/README.md"


def pages():
    """The pages, by their paths."""
    return sources.paths("*.md") + sources.paths("docs/*.md")


def broken_links(path, text):
    """The relative links that lead nowhere."""
    for target in re.findall(r"\]\(([^)\s]+)\)", text):
        if "://" in target or target.startswith("#"):
            continue
        file = os.path.normpath(os.path.join(TOP, os.path.dirname(path), target.split("#")[0]))
        if not os.path.exists(file):
            yield f"{path}: the link {target} leads to no file"


def other_names(library):
    """The names of the sources that are no crates: of items, of definitions, and of files."""
    paths = [path for part in ("src", "data", "planted", "must-fail") for path in sources.paths(f"crates/*/{part}/*")]
    known = {os.path.basename(path).split(".")[0] for path in paths}
    for source in sources.paths("crates/graphql_checked/src/*.rt"):
        known |= {label for function in sources.functions(sources.read(source)) for _, label, _, _ in function.clauses}
    for file in library.files.values():
        known |= set(file.definitions) | set(file.owners)
    for source in sources.paths("crates/*/src/*.rt"):
        known |= set(re.findall(r"\b(?:fn|struct|enum|trait|type|const|mod) (\w+)", sources.masked(sources.read(source))))
    return known


def crates_alone(path, text):
    """The names in backticks of a page where nothing but crates stands, each with its line."""
    heads = []
    for number, line in enumerate(text.split("\n"), 1):
        cells = line.strip("|").split("|") if line.startswith("|") else []
        heads = heads if heads and cells else cells
        shown = "".join(cell for cell, head in zip(cells, heads) if re.search(r"\b[Cc]rates?\b", head))
        if path == "docs/PROMISES.md" and line.startswith("### "):
            shown = line
        for word in re.findall(r"`(\w+)`", shown):
            yield number, word


def c_names():
    """The names of the header for C and of what it passes on to."""
    return set(re.findall(r"\bgraphql_\w+", sources.read("include/graphql_checked.h") + sources.read("c/graphql_checked.c")))


def unknown_crates(path, text, crates, others):
    """The names that read as crates and are none of crates.txt."""
    areas = sorted({crate.split("_")[0] for crate in crates})
    found, calls = set(crates_alone(path, text)), c_names()
    for number, line in enumerate(re.sub(r"^```(?:rust|console|c|python|js|go)\n.*?^```$", lambda block: "\n" * block.group(0).count("\n"), text, flags=re.M | re.S).split("\n"), 1):
        for word in re.findall(rf"\b(?:{'|'.join(areas)})_\w+", line):
            if not word.endswith("_") and word not in calls and (word.startswith("graphql_") or word not in others):
                found.add((number, word))
    for number, word in sorted(found):
        if word not in crates:
            yield f"{path}:{number}: `{word}` is no crate of crates.txt"


def unknown_files(path, text, files):
    """The names of files that are not there."""
    for number, line in enumerate(text.split("\n"), 1):
        for word in sorted(set(re.findall(r"`(?:[\w./-]*/)?([\w-]+\.(?:rt|antt|rows|edit|py))`", line))):
            if word not in files:
                yield f"{path}:{number}: `{word}` is the name of no file"


def misquoted(path, text):
    """The lines of quoted blocks that are not in the file from which they come, in their order."""
    for block in re.finditer(r"^<!-- from (\S+) -->\n```\w*\n(.*?)^```$", text, re.M | re.S):
        if not os.path.exists(os.path.join(TOP, block.group(1))):
            yield f"{path}: quotes {block.group(1)}, which is no file"
            continue
        left = sources.read(block.group(1)).split("\n")
        for line in filter(None, block.group(2).split("\n")):
            if line not in left:
                yield f"{path}: quotes what does not stand there in {block.group(1)}: {line.strip()}"
            else:
                left = left[left.index(line) + 1 :]


def refused_words():
    """The words that pages and doc comments must not have, within a line or over its end, each with those to use."""
    table = sources.read("CONTRIBUTING.md").split(WORDS)[1].split("\n\n")[0].strip().split("\n")[2:]
    for line in table:
        words, use = (cell.strip() for cell in line.strip("|").split("|"))
        either = "|".join(r"[^\S\n]*\s[^\S\n]*".join(map(re.escape, word.split())) for word in words.split(", "))
        yield re.compile(rf"\b(?:{either})\b", re.I), use


def words_of(name):
    """The words of a name, with a space around each."""
    return " " + re.sub(r"[_\s-]+", " ", re.sub(r"([a-z0-9])([A-Z])", r"\1 \2", name)).lower() + " "


def badly_named(library, refused):
    """The names that have words which are refused: where each is, and the name."""
    found = [(f"{file.path}:{made.line}", name) for file in library.files.values() for name, made in file.definitions.items()]
    found += [(file.path, name) for file in library.files.values() for name in file.modules]
    named = re.compile(r"\b(?:fn|struct|enum|trait|type|const|mod|static|let mut|let) (\w+)|\b(?:ensures|requires|follows) (?:\* )?(\w+) \{")
    for path in sources.paths("crates/*/src/*.rt"):
        text = sources.masked(sources.read(path))
        found += [(f"{path}:{text.count(chr(10), 0, it.start()) + 1}", it.group(1) or it.group(2)) for it in named.finditer(text)]
    return [(where, name) for where, name in found if any(pattern.search(words_of(name)) for pattern, _ in refused)]


def prose(path, text):
    """The text of a page with code, links' targets and the table of words blanked."""
    blank = lambda found: re.sub(r"[^\n]", " ", found.group(0))
    text = re.sub(r"^```.*?^```$", blank, text, flags=re.M | re.S)
    if WORDS in text:
        head, rest = text.split(WORDS, 1)
        text = head + WORDS + blank(re.match(r".*", rest, re.S))
    return re.sub(r"`[^`\n]*`|\]\([^)\n]*\)", blank, text)


def badly_worded(path, text, refused):
    """The words of a text that are refused."""
    shown = prose(path, text)
    for pattern, use in refused:
        for found in pattern.finditer(shown):
            number = shown.count("\n", 0, found.start()) + 1
            yield f"{path}:{number}: `{' '.join(found.group(0).split())}`: write: {use}"


def comments(text, mark):
    """The lines of a source: of a comment on a line of its own its text, and of all else nothing."""
    for line in text.split("\n"):
        found = re.match(rf"\s*{mark}[/!]?(?!/)(.*)", line)
        yield found.group(1).removeprefix(" ") if found else ""


def python_comments(text):
    """The lines of a source in Python: of comments, and of strings that have several lines or are a statement, their text."""
    lines, depth, before = [""] * (text.count("\n") + 2), 0, tokenize.NEWLINE
    for token in tokenize.generate_tokens(io.StringIO(text).readline):
        is_statement = depth == 0 and before in (tokenize.NEWLINE, tokenize.INDENT, tokenize.DEDENT, tokenize.NL, tokenize.COMMENT)
        if token.type == tokenize.COMMENT or (token.type == tokenize.STRING and (is_statement or token.start[0] != token.end[0])):
            for number, part in enumerate(token.string.split("\n"), token.start[0]):
                lines[number] += " " + part.strip("#\" ")
        depth += {"(": 1, "[": 1, "{": 1, ")": -1, "]": -1, "}": -1}.get(token.string, 0) if token.type == tokenize.OP else 0
        before = token.type
    return lines[1:]


def script_comments(path):
    """The comments of a script, line by line."""
    text = sources.read(path)
    is_python = path.endswith(".py") or "python" in text.split("\n", 1)[0]
    return "\n".join(python_comments(text) if is_python else comments(text, "#"))


def badly_commented(refused):
    """The words that are refused: in pages of crates, in lists that pages are made from, in comments of sources, definitions, proofs and scripts."""
    for path in sources.paths("crates/*/*.md") + sources.paths("crates/*/*/*.md") + sources.paths("docs/*.txt"):
        yield from badly_worded(path, sources.read(path), refused)
    for path in sources.paths("crates/*/src/*.rt"):
        yield from badly_worded(path, "\n".join(comments(sources.read(path), "//")), refused)
    for path in sources.paths("crates/*/specs/*.antt") + sources.paths("crates/*/proofs/**/*.antt"):
        yield from badly_worded(path, "\n".join(comments(sources.read(path), "--")), refused)
    for path in [".ci/run", *sources.paths("scripts/*"), *sources.paths("scripts/*/*")]:
        if os.path.isfile(os.path.join(TOP, path)) and not path.endswith((".go", ".js")) and "__pycache__" not in path:
            yield from badly_worded(path, script_comments(path), refused)


def left_out(crates):
    """The crates that docs/MAP.md leaves out."""
    named = set(re.findall(r"\w+", sources.read("docs/MAP.md")))
    for crate in crates:
        if crate not in named:
            yield f"docs/MAP.md: says nothing of `{crate}`"


def long_clauses(library):
    """The public clauses that are too long: where they stand, their length, and of what they are."""
    found = []
    for clause in believed.public_clauses(library):
        words = " ".join(clause.text.split())
        if clause.kind.split()[0] in ("ensures", "requires", "follows"):
            line = f"{clause.kind} {{ {words} }}"
            if len(line) > CHARACTERS:
                found.append((len(line), clause.where()))
    return sorted(found, reverse=True)


def main(words):
    crates = sources.crates()
    files = {name for _, _, names in os.walk(TOP) for name in names}
    library = sources.Library()
    others = other_names(library)
    wrong = []
    lines = sources.read("README.md").count("\n")
    if lines > LINES:
        wrong.append(f"README.md has {lines} lines, more than {LINES}")
    refused, counts = list(refused_words()), {}
    for path in pages() + sources.paths(PLAN):
        text = sources.read(path)
        if path != PLAN:
            counts[path] = len(text.split())
        wrong += badly_worded(path, text, refused)
        wrong += broken_links(path, text)
        wrong += unknown_crates(path, text, crates, others)
        wrong += unknown_files(path, text, files)
        wrong += misquoted(path, text)
    for name, count, most in (("README.md", counts["README.md"], README_WORDS), ("all pages", sum(counts.values()), ALL_WORDS)):
        if count > most:
            wrong.append(f"{name}: {count} words, more than {most}")
    wrong += badly_commented(refused)
    wrong += left_out(crates)
    names = badly_named(library, refused)
    if "--names" in words:
        print("\n".join(f"{where}: {name}" for where, name in names))
        return 0
    wrong += [f"{where}: the name {name} has a word that is refused" for where, name in names]
    clauses = long_clauses(library)
    if "--clauses" in words:
        print("\n".join(f"{length} characters: {where}" for length, where in clauses))
        return 0
    wrong += [f"{where}: {length} characters, more than {CHARACTERS}" for length, where in clauses]
    print("".join(f"{line}\n" for line in wrong), end="")
    print(f"pages: {len(counts)} pages, {sum(counts.values())} words, README of {lines} lines, {len(wrong)} wrong")
    return 1 if wrong and "--check" in words else 0


if __name__ == "__main__":
    sys.exit(main(sys.argv[1:]))
