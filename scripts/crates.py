#!/usr/bin/env python3
"""The plan of the crates, as crates/README.md: scripts/crates.py [--write] [--check] [--below CRATE]

Its sections are those of crates.txt, each under the comment that begins it. In a section a crate comes after those of the section
that it needs, directly or through others. Each has a line: its name, the first sentence of the head of its `src/lib.rt` or
`src/main.rt`, and the files that this head says to begin with.

--write writes the page. --check prints a line for each crate without a section or a head, and one where the page is not what this
makes; the status is then 1. --below prints the lines of crates.txt of a crate and of all below it, the lowest first.
"""
import os
import re
import sys

import sources
from sources import TOP

PAGE, LIST = "crates/README.md", "crates.txt"

TOP_OF_PAGE = """
# The crates

Begin with [`graphql_names`](graphql_names), which nearly all others need. Then read [`tree_literals`](tree_literals), whose contracts see Rust values as plain trees, [`rule_definitions`](rule_definitions), which states the rules on schemas, and [`rule_types`](rule_types), which decides some of them.

A crate's prefix mostly names its area; `graphql_` marks what users import, the programs, and what C calls. In a section each crate comes after those that it needs. `scripts/crates.py --write` makes this page from [crates.txt](../crates.txt), which lists what each crate needs, and from the heads of the crates.
"""


def in_order(crates, needs):
    """The crates of a section, each after those that it needs, and else in the order of crates.txt."""
    left, done = list(crates), []
    while left:
        free = [crate for crate in left if set(sources.all_below(crate, needs)) & set(left) <= {crate}]
        done.append((free or left)[0])
        left.remove(done[-1])
    return done


def head(crate):
    """The paragraphs of the head of a crate, each in one line and without its list; none where there is no head."""
    files = [f"crates/{crate}/src/{file}" for file in ("lib.rt", "main.rt")]
    path = next((file for file in files if os.path.exists(os.path.join(TOP, file))), None)
    lines = re.findall(r"^//! ?(.*)$", sources.read(path), re.M) if path else []
    texts = [re.split(r"^- ", text, maxsplit=1, flags=re.M)[0] for text in "\n".join(lines).split("\n\n")]
    return [" ".join(re.sub(r"\[(`[^`]+`)\](?!\()", r"\1", text).split()) for text in texts if text.strip()]


def sentences(text):
    """The sentences of a paragraph, each with its full stop."""
    return re.findall(r"\S.*?\.(?=\s|$)|\S.*$", text)


def link(file, crate, sentence):
    """A file that a sentence of a head names, with a link to it in that crate or in one that the sentence names."""
    part = file if "/" in file else f"src/{file}"
    for name in [crate, *re.findall(r"`(\w+)`", sentence)]:
        if os.path.exists(os.path.join(TOP, "crates", name, part)):
            return f"[`{os.path.basename(file)}`]({name}/{part})"
    return f"`{file}`"


def begin(crate, paragraphs):
    """The files that a head says to begin with, up to a semicolon: what follows it is about others."""
    for sentence in (it for text in paragraphs for it in sentences(text)):
        said = re.search(r"\b[Bb]egin with ([^;]*)", sentence)
        if said:
            named = re.findall(r"`((?:specs/)?\w+\.(?:rt|antt))`", said.group(1))
            return [link(file, crate, sentence) for file in named]
    return []


def joined(files):
    """The files in a row, with commas and `and`."""
    return ", ".join(files[:-1]) + " and " * (len(files) > 1) + files[-1]


def line_of(crate):
    """The line of a crate; None where it has no head."""
    paragraphs = head(crate)
    if not paragraphs:
        return None
    files = begin(crate, paragraphs)
    return f"- [`{crate}`]({crate}): {sentences(paragraphs[0])[0]}" + (f" Begin with {joined(files)}." if files else "")


def made():
    """The page, and a line for each crate that it cannot have as it must."""
    needs, lines, wrong, sections = sources.crates(), TOP_OF_PAGE.strip().split("\n"), [], {}
    for crate in sources.listed_crates():
        sections.setdefault((crate.area, crate.words), []).append(crate.name)
    wrong += [f"{LIST}: `{crate}` is before the first section" for crate in sections.pop(("", ""), [])]
    for (area, words), crates in sections.items():
        lines += ["", f"## `{area}_`: {words}", ""]
        for crate in in_order(crates, needs):
            line = line_of(crate)
            if line:
                lines.append(line)
            else:
                wrong.append(f"crates/{crate}: src/lib.rt or src/main.rt has no head")
    return "\n".join(lines) + "\n", wrong


def main(words):
    if words[:1] == ["--below"]:
        lines = {crate.name: crate.line() for crate in sources.listed_crates()}
        print("".join(f"{lines[name]}\n" for name in sources.all_below(words[1], sources.crates())), end="")
        return 0
    page, wrong = made()
    path = os.path.join(TOP, PAGE)
    if "--write" in words:
        with open(path, "w", encoding="utf-8") as file:
            file.write(page)
    elif "--check" not in words:
        print(page, end="")
        return 0
    there = sources.read(PAGE) if os.path.exists(path) else ""
    if there != page:
        wrong.append(f"{PAGE}: is not what {LIST} and the crates make; scripts/crates.py --write makes it")
    count = len(re.findall(r"^- ", page, re.M))
    print("\n".join([*wrong, f"crates: {count} crates, {len(wrong)} wrong"]))
    return 1 if wrong else 0


if __name__ == "__main__":
    sys.exit(main(sys.argv[1:]))
