#!/usr/bin/env python3
"""Whether all departures from the specification are told: scripts/differences.py [--check]

The first table of docs/DIFFERENCES.md has a row for each departure: its section, `stricter:` or `laxer:` and how, the definitions
or fields that depart, and texts that show it. --check prints a line for each of these, and its status is then 1:

- a definition or field of specs/ whose comment has a line that begins with Stricter or Laxer, and the rows of the table do not name
  it as often with that word; or the other way round;
- a text of the table that no row of departures.rows (row_checker) with its verdict has, named after the row's section and definition;
  a row of the table without a text whose verdict shows it; a row of departures.rows that is named after none of the table; texts that
  are over another schema than the page says; or a file of rows that the gate does not run;
- the number of rows, which README.md names, is another there.

It prints the number of rows last.
"""
import collections
import os
import re
import sys

import sources

PAGE, ROWS, README = "docs/DIFFERENCES.md", "crates/row_checker/data/departures.rows", "README.md"

# The verdict that shows a departure, and its status.
SHOWN = {"stricter": "refused", "laxer": "accepted"}
STATUS = {"accepted": "0", "refused": "1"}


class Departure:
    """A row of the table: its line, its first section or directive, the word, what departs, and its texts, each with its verdict."""

    def __init__(self, line, cells):
        self.line, (first, here, names, shown) = line, cells
        self.section = "".join(re.findall(r"^\d[\d.]*|@\w+", first)[:1])
        self.word = here.split(":")[0]
        self.names = [(field, of or None) for field, of in re.findall(r"`(\w+)`(?: of `(\w+)`)?", names)]
        parts = re.split(r"\b(?:is|are) (accepted|refused)\b", shown)
        pairs = [(re.findall(r"`([^`]+)`(?: with `([^`]+)`)?", part), verdict) for part, verdict in zip(parts[::2], parts[1::2])]
        self.texts = [(list(filter(None, texts)), verdict) for found, verdict in pairs for texts in found]


def departures(page):
    """The rows of the first table of the page."""
    found = []
    for number, line in enumerate(page.split("\n"), 1):
        cells = [cell.strip() for cell in line.strip("|").split("|")] if line.startswith("|") else []
        if found and not cells:
            break
        if len(cells) == 4 and cells[0] != "Specification" and not cells[0].startswith("---"):
            found.append(Departure(f"{PAGE}:{number}", cells))
    return found


def commented():
    """What comments of specs/ say to depart, a definition or a field of one and the word: each with the lines that say so."""
    found = collections.defaultdict(list)
    for path in sources.paths("crates/*/specs/*.antt"):
        record, said = None, []
        for number, line in enumerate(sources.read(path).split("\n"), 1):
            departs = re.match(r" *-- (Stricter|Laxer)\b", line)
            if departs:
                said.append((departs.group(1).lower(), f"{path}:{number}"))
            if line.lstrip().startswith("--") or not line.strip():
                continue
            head = re.match(r"( *)(?:(?:abbrev|unfoldable|opaque) )?(?:pub )?(record |data )?(\S+)", line)
            record = record if record and len(head.group(1)) > record[0] else None
            name = (head.group(3), record and record[1])
            for word, where in said:
                found[(*name, word)].append(where)
            record, said = (len(head.group(1)), head.group(3)) if head.group(2) else record, []
    return found


def value(text):
    """The value of a field of a row file."""
    made = {"n": "\n", "r": "\r", "t": "\t", "\\": "\\"}
    return re.sub(r"\\(?:x(..)|(.))", lambda found: chr(int(found.group(1), 16)) if found.group(1) else made[found.group(2)], text)


class Row:
    """A row of a row file: where it is, its name, and its own fields."""

    def __init__(self, line, name):
        self.line, self.name, self.fields = line, name, collections.defaultdict(list)

    def has(self, texts, verdict):
        """Whether it asks for this verdict of these texts: a document over the common schema, or its own schema with any."""
        own = self.fields["schema"] + self.fields["document"]
        return self.fields["status"] == [STATUS[verdict]] and set(self.fields["schema"]) <= set(texts) <= set(own)


def rows(text):
    """What is common to the rows of a row file, and then these; what begins again as common is a row without a name."""
    found = []
    for number, line in enumerate(text.split("\n"), 1):
        name, colon, rest = line.partition(":")
        if name in ("common", "row"):
            found.append(Row(f"{ROWS}:{number}", rest.strip()))
        elif colon and not line.startswith("#"):
            found[-1].fields[name].append(value(rest.removeprefix(" ")))
    return found


def unlike(told, found):
    """The departures that comments and rows of the table do not tell as often as one another."""
    named = collections.defaultdict(list)
    for row in told:
        for field, of in row.names:
            named[(field, of, row.word)].append(row.line)
    for key in sorted(set(named) | set(found), key=str):
        if len(named[key]) != len(found.get(key, [])):
            name = f"`{key[0]}` of `{key[1]}`" if key[1] else f"`{key[0]}`"
            where = ", ".join(named[key] + found.get(key, []))
            yield f"{where}: {name}: {len(named[key])} rows say `{key[2]}:`, and {len(found.get(key, []))} lines of its comment begin so"


def is_named_after(row, departure):
    """Whether a row of rows is named after the departure: its section, what departs, and what the row has."""
    return any(row.name.startswith(f"{departure.section} {field}: ") for field, _ in departure.names)


def untold(told, found):
    """The texts of the table that no row of rows has, and rows without text."""
    for departure in told:
        mine = [row for row in found if is_named_after(row, departure)]
        for texts, verdict in departure.texts:
            if not any(row.has(texts, verdict) for row in mine):
                yield f"{departure.line}: no row of {ROWS} named `{departure.section} ..: ..` has `{'` with `'.join(texts)}` {verdict}"
        if departure.word not in SHOWN or not any(verdict == SHOWN[departure.word] for _, verdict in departure.texts):
            yield f"{departure.line}: no text shows that this is `{departure.word}`"


def main(words):
    page = sources.read(PAGE)
    told, found = departures(page), commented()
    common, *tried = rows(sources.read(ROWS)) or [Row(ROWS, "")]
    wrong = [] if told and found and tried else [f"{PAGE}, {ROWS}: nothing was found"]
    wrong += unlike(told, found)
    wrong += untold(told, tried)
    wrong += [f"{row.line}: `{row.name}` is named after no row of {PAGE}" for row in tried if not any(is_named_after(row, it) for it in told)]
    wrong += [f"{ROWS}: {PAGE} does not have its schema" for schema in common.fields["schema"] or [""] if f"`{schema}`" not in page]
    if os.path.basename(ROWS) not in sources.read("crates/row_checker/args").split():
        wrong.append(f"{ROWS}: is not among the files that the gate runs")
    if not re.search(rf"\b{len(told)} points\b", sources.read(README)):
        wrong.append(f"{README}: does not say `{len(told)} points`")
    print("".join(f"{line}\n" for line in wrong), end="")
    print(f"differences: {len(told)} rows, {sum(map(len, found.values()))} comments, {len(tried)} rows of texts, {len(wrong)} wrong")
    return 1 if wrong and "--check" in words else 0


if __name__ == "__main__":
    sys.exit(main(sys.argv[1:]))
