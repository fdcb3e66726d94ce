#!/usr/bin/env python3
"""What is written from docs/rulebook.txt: scripts/rulebook.py [--check] [--write] [--count]

The rulebook has an entry for each variant of the three enums of faults. All that is the list of these variants again is written
from it: the enums and their `Drop`, the copies, the views, the messages, the names, the maps of places, which faults last, why `==`
decides what is seen. A part that is written is in a file with other text, and is found by the item in which it is; no mark in the file
says so.

--check prints a line for each part that is not what the rulebook makes, with the place where it first differs, and each entry that
is not well formed; its status is then 1. --write writes the parts. --count prints how many lines of each file are written.
Without a word it prints the parts and where they stand. The sentences of the rulebook are the work of scripts/rules.py.
"""
import os
import re
import sys

import sources
from variants import (
    COPIED, DATA, TYPES, alphabet, box_drop_lines, box_lines, clone_lines, conflict, conflict_lines,
    constructor_lines, copied_lines, decided_lines, document_gap_words, document_view, document_words, drop_by_owned_lines,
    drop_lines, equations, folding_message, folding_words, gap_words, group_lines, lasts_lines, letters, matches_lines, message_arms,
    message_text, name_lines, owned, plain_applied, repeat_error_lines, repeat_lines, repeating, short_view,
    template_lines, unplaced, variant_lines, with_lines, with_trace,
)

BOOK = "docs/rulebook.txt"
SAME = "crates/graphql_faults/proofs/"
STAGES = ["folding", "schemas", "typing", "documents", "merging"]

# What `lasts` says of an entry of an enum: of those without it the other is so. Of folding nothing is said.
LASTS = {"DiagnosticData": "no", "BuildError of documents": "yes"}


# ---- the rulebook


class Field:
    """A field of the data: its name, its Rust type, its name in definitions, its comment."""

    def __init__(self, text):
        text, _, self.comment = text.partition(" -- ")
        found = re.fullmatch(r"(\w+): (.+?)(?: \((\w+)\))?", text)
        if not found:
            raise SystemExit(f"{BOOK}: `{text}` is no field")
        self.name, self.type = found.group(1), found.group(2)
        self.told = found.group(3) or self.name
        if self.type not in TYPES:
            raise SystemExit(f"{BOOK}: {self.name} has the type `{self.type}`, which scripts/variants.py does not know")

    def rust(self):
        return {"place": "Option<SourceSpan>", "places": "Vec<Option<SourceSpan>>"}.get(self.type, self.type)

    def known(self):
        return TYPES[self.type]


class Entry:
    """A variant with what the rulebook says of it."""

    def __init__(self, name, group, line):
        self.name, self.group, self.line, self.lines = name, group, line, {}

    def one(self, key):
        return self.lines.get(key, [""])[0]

    def finish(self):
        self.data = [Field(text) for text in self.lines.get("data", [])]
        self.is_boxed = "boxed" in self.lines
        self.rules = [re.fullmatch(r"(.+) \(([^()]+)\)", text) for text in self.lines.get("valid", [])]
        self.parts = re.split(r"\{([\w.]+)\}", self.one("message"))  # texts, and between them what fills the gaps
        return self

    def sentences(self):
        """Each rule that is told so: its sentence and its section."""
        return [(found.group(1), found.group(2)) for found in self.rules]

    def said(self):
        """The sentences as comments have them, each with its section, where the specification has one."""
        for sentence, section in self.sentences():
            number = re.sub(r"^past ", "", section)
            words = f"{'past ' if number != section else ''}section{'s' if not re.fullmatch(r'[0-9.]+', number) else ''} {number}"
            yield sentence + (f" ({words})" if number[:1].isdigit() else "")

    def gaps(self):
        return self.parts[1::2]

    def field(self, name):
        return next(field for field in self.data if field.name == name)

    def wrong(self, enum):
        """What is not well formed."""
        for key in ("valid", "fault", "message"):
            if not self.one(key):
                yield f"{self.name} has no `{key}`"
        yield from (f"{self.name}: `{text}` ends in no section" for text, found in zip(self.lines.get("valid", []), self.rules) if not found)
        yield from (f"{self.name}: `{text}` is not of the form `.. is valid only if ..`"
                    for text in self.lines.get("valid", []) if " is valid only if " not in text)
        if ("stage" in self.lines) == ("never" in self.lines):
            yield f"{self.name} has to have a `stage` or `never`"
        yield from (f"{self.name}: `{stage}` is no stage" for stage in self.stages() if stage not in STAGES)
        if "lasts" in self.lines and not re.match(rf"{LASTS.get(enum, 'nothing')}: .", self.one("lasts")):
            yield f"{self.name}: `lasts` has to begin with `{LASTS.get(enum, 'nothing')}: `"
        named = {field.name: field.type for field in self.data}
        unknown = [gap for gap in self.gaps() if not set(gap.split(".")) <= set(named)]
        yield from (f"{self.name}: `{gap}` is no field" for gap in unknown)
        if not unknown and not can_fill(enum, [[named[name] for name in gap.split(".")] for gap in self.gaps()]):
            yield f"{self.name}: the texts of {enum} have no template with such gaps"
        yield from (f"{self.name}: the comment of `{field.name}` is written nowhere, since the data are in no box" for field in self.data if field.comment and not self.is_boxed)
        if len(owned(self)) > 8:
            yield f"{self.name}: scripts/variants.py writes copies of at most eight values"

    def stages(self):
        return self.one("stage").split(", ") if "stage" in self.lines else []


def can_fill(enum, gaps):
    """Whether the templates of the enum's texts have gaps for these types."""
    if enum == "DiagnosticData":
        return len(gaps) <= 5 and all(gap == ["Name", "Name"] or (len(gap) == 1 and TYPES[gap[0]].gap) for gap in gaps)
    return gaps in ([], [["Name"]], [["OperationType"]], [["Name"], ["Name"]])


def entries(text=None):
    """The entries of the rulebook, or of a text of its form, by enum."""
    found, enum, group, entry, key = {}, None, "", None, ""
    for number, line in enumerate((text or sources.read(BOOK)).split("\n"), 1):
        if line.startswith("#") or not line.strip():
            continue
        heading = re.match(r"(====|----) (.+)$", line)
        spoken = re.match(r"  (\w+) +(.+)$", line)
        if heading and heading.group(1) == "====":
            enum, group = found.setdefault(heading.group(2), []), ""
        elif heading:
            group = heading.group(2)
        elif re.fullmatch(r"\w+", line):
            entry = Entry(line, group, number)
            enum.append(entry)
        elif spoken and spoken.group(1) in ("valid", "stage", "never", "lasts", "fault", "boxed", "repeat", "data", "message"):
            key = spoken.group(1)
            entry.lines[key] = [spoken.group(2)]
        elif line.startswith("     ") and key in ("valid", "data"):
            entry.lines[key].append(line.strip())
        else:
            raise SystemExit(f"{BOOK}:{number}: `{line.strip()}` is no line of an entry")
    for enum in found.values():
        for entry in enum:
            entry.finish()
    return found


# ---- where the parts stand


class Part:
    """A part of a file: where it stands, by line numbers from 0, and its lines as the rulebook makes them."""

    def __init__(self, path, name, find, made):
        self.path, self.name, self.find, self.made = path, name, find, made


def at(lines, head, start=0):
    return next((number for number in range(start, len(lines)) if lines[number].startswith(head)), None)


def item_end(lines, first):
    """The line that closes the item, or what is in it, that begins at a line; None where it is on one line or is not closed."""
    return at(lines, " " * (len(lines[first]) - len(lines[first].lstrip())) + "}", first + 1)


def opened(lines, head, starts):
    """The line in the item that begins so for which it holds that it starts what is looked for."""
    first = at(lines, head)
    end = None if first is None else item_end(lines, first)
    return None if end is None else next((number for number in range(first, end) if starts(lines[number])), None)


def inside(head, opener=None):
    """What is in the braces of the item that begins so, or of the first line in it that begins as `opener`."""

    def find(lines):
        first = opened(lines, head, lambda line: line.strip().startswith(opener)) if opener else at(lines, head)
        end = None if first is None else item_end(lines, first)
        return None if end is None else (first + 1, end)

    return find


def below(head):
    """What stands below the line that begins so, up to an empty line."""

    def find(lines):
        first = at(lines, head)
        if first is None:
            return None
        return first + 1, next((number for number in range(first + 1, len(lines)) if not lines[number]), len(lines))

    return find


def item(head):
    """The item that begins so, with its comment and what it derives."""

    def find(lines):
        first = at(lines, head)
        if first is None:
            return None
        end = at(lines, "}", first) + 1
        while lines[first - 1].startswith(("///", "#[derive")):
            first -= 1
        return first, end

    return find


def line(head):
    def find(lines):
        first = at(lines, head)
        return None if first is None else (first, first + 1)

    return find


def matched(head):
    """The patterns of the `matches!` in the item that begins so, after the line of what is matched."""

    def find(lines):
        first = opened(lines, head, lambda line: line.endswith("matches!("))
        return None if first is None else (first + 2, at(lines, "    )", first))

    return find


def imported(front, entries):
    """The line that imports a data type, what stands before it, and its constructors."""
    return [front + ", ".join(entry.name for entry in entries) + "}"]


def folding_parts(e):
    code, words = "crates/schema_fold/src/build_error.rt", "crates/schema_fold/src/build_error_text.rt"
    specs = "crates/schema_fold/specs/"
    yield Part(code, "enum BuildError", inside("pub enum BuildError {"), variant_lines(e))
    yield Part(code, "Drop for BuildError", inside("impl Drop for BuildError {", "match self {"), drop_lines("BuildError", e))
    yield Part(code, "enum Repeat", inside("pub enum Repeat {"), repeat_lines(e))
    yield Part(code, "Repeat::error", inside("impl Repeat {", "match self {"), repeat_error_lines(e))
    yield Part(words, "filled_template", inside("fn filled_template(", "match error {"), message_arms("BuildError", e, folding_words))
    yield Part(specs + "BuildErrors.antt", "Breach", below("pub data Breach "), constructor_lines(e, "Breach"))
    yield Part(specs + "FaultView.antt", "breach_of", below("abbrev pub breach_of "), equations("breach_of", e, "rust.", short_view, letters))
    yield Part(specs + "FaultView.antt", "repeat_breach", below("abbrev pub repeat_breach "),
               [f"repeat_breach repeat.{entry.one('repeat')} = breach.{entry.name}" for entry in repeating(e)])
    yield Part(specs + "Messages.antt", "message", below("abbrev pub message "), equations("message", e, "breach.", folding_message))


def data_parts(e):
    code, specs = "crates/fault_data/src/", "crates/fault_data/specs/"
    shapes = "crates/rule_definitions/specs/Diagnostics.antt"
    yield Part(shapes, "Diagnostic", below("pub data Diagnostic "), constructor_lines(e, "Diagnostic P E"))
    placed = lambda entry: plain_applied(entry.name, [field.known().placed.format(field.told) for field in entry.data])
    yield Part(shapes, "map_places", below("  abbrev pub map_places "), equations("map_places", e, "", placed, indent="  "))
    yield Part(code + "diagnostic_data.rt", "enum DiagnosticData", inside("pub enum DiagnosticData {"), variant_lines(e, hashes=True))
    yield Part(code + "diagnostic_data.rt", "Drop for DiagnosticData", inside("impl Drop for DiagnosticData {", "match self {"),
               drop_by_owned_lines(DATA, e))
    yield Part(code + "copy.rt", "clone", inside("impl DiagnosticData {", "match self {"), clone_lines(e))
    yield Part(code + "copy.rt", "with_name", inside("fn with_name(", "match diagnostic {"), with_lines(e, "name"))
    yield Part(code + "schema_copies.rt", "with_set", inside("pub(crate) fn with_set(", "match diagnostic {"), with_lines(e, "set"))
    for kind in COPIED[2:]:
        path = code + ("schema_copies.rt" if kind in ("implementation", "cycle") else "use_copies.rt")
        yield Part(path, f"copied_{kind}", inside(f"pub(crate) fn copied_{kind}(", "match diagnostic {"), copied_lines(e, kind))
    yield Part(code + "message.rt", "template_of", inside("fn template_of(", "match diagnostic {"), template_lines(e))
    view = lambda entry: plain_applied("tree." + entry.name, [field.known().view.format(field.name) for field in entry.data])
    yield Part(specs + "DiagnosticView.antt", "diagnostic_of", below("abbrev pub diagnostic_of "), equations("diagnostic_of", e, "rust.", view))
    some = lambda number, what: lambda entry: f"Some {owned(entry)[number].name}{what}"
    for function, kind, result in [("one_name", "name", some(0, "")), ("set_name", "set", some(0, "")), ("set_places", "set", some(1, ".items"))]:
        yield Part(specs + "CopyGroups.antt", function, below(f"abbrev pub {function} "), group_lines(function, e, kind, result, "None"))
    for kind in COPIED[2:]:
        function = f"is_of_{kind}"
        yield Part(specs + "CopyGroups.antt", function, below(f"abbrev pub {function} "),
                   group_lines(function, e, kind, lambda entry: "true", "false"))
    numbers = {entry.name: str(number) for number, entry in enumerate(e)}
    yield Part(SAME + "DataEquality.antt", "number", below("abbrev number "), equations("number", e, "tree.", lambda entry: numbers[entry.name], alphabet))
    yield Part(SAME + "DataEquality.antt", "data_same", below("pub data_same "), decided_lines("data_same", e, "tree.", with_trace))
    front = "use Rattle.rule_definitions.specs.Diagnostics.{Diagnostic, "
    yield Part(specs + "Messages.antt", "the import", line(front), imported(front, e))
    yield Part(specs + "Messages.antt", "diagnostic_message", below("  abbrev pub diagnostic_message "),
               equations("diagnostic_message", e, "", lambda entry: message_text(entry, gap_words(entry)), indent="  ", groups=True))


def document_parts(e):
    code, specs = "crates/fault_document_errors/src/", "crates/fault_document_errors/specs/"
    unplacing = "crates/rule_document_definitions/specs/FaultsUnplaced.antt"
    yield Part(code + "build_error.rt", "enum BuildError", inside("pub enum BuildError {"), variant_lines(e))
    yield Part(code + "build_error.rt", "Drop for BuildError", inside("impl Drop for BuildError {", "match self {"), drop_lines("BuildError", e))
    for entry in e:
        if entry.is_boxed:
            yield Part(code + "build_error.rt", f"struct {entry.name}", item(f"pub struct {entry.name} {{"), box_lines(entry))
            yield Part(code + "build_error.rt", f"Drop for {entry.name}", inside(f"impl Drop for {entry.name} {{", "fn drop("), box_drop_lines(entry))
            yield Part(specs + "DocumentBreachView.antt", conflict(entry), below(f"abbrev pub {conflict(entry)} "), conflict_lines(entry))
    yield Part(code + "build_error_text.rt", "words_of", inside("fn words_of(", "match error {"), message_arms("BuildError", e, document_words))
    yield Part(specs + "DocumentBreaches.antt", "DocumentBreach", below("pub data DocumentBreach "),
               constructor_lines(e, "DocumentBreach P", "TypeTree (Unit {0})"))
    yield Part(specs + "DocumentBreachView.antt", "document_breach_of", below("abbrev pub document_breach_of "),
               equations("document_breach_of", e, "rust.", document_view, letters))
    numbers = {entry.name: str(number) for number, entry in enumerate(e)}
    yield Part(SAME + "BreachEquality.antt", "number", below("abbrev number "), equations("number", e, "breach.", lambda entry: numbers[entry.name], alphabet))
    yield Part(SAME + "BreachEquality.antt", "breach_eq-Decides", below("pub breach_eq-Decides "),
               decided_lines("breach_eq-Decides", e, "breach.", lambda entry, reason: reason))
    front = "use Rattle.fault_document_errors.specs.DocumentBreaches.{DocumentBreach, "
    yield Part(specs + "DocumentMessages.antt", "the import", line(front), imported(front, e))
    yield Part(specs + "DocumentMessages.antt", "document_message", below("  abbrev pub document_message "),
               equations("document_message", e, "", lambda entry: message_text(entry, document_gap_words(entry)), indent="  "))
    front = "use Rattle.fault_document_errors.specs.DocumentBreaches.{Selected, DocumentBreach, "
    yield Part(unplacing, "the import", line(front), imported(front, e))
    yield Part(unplacing, "unplaced_breach", below("  abbrev pub unplaced_breach "), equations("unplaced_breach", e, "", unplaced, indent="  "))


def name_parts(folding, data, documents):
    for enum, function, prefix, e in [("SchemaError", "folding_rule_name", "folding.", folding),
                                      ("DocumentError", "document_rule_name", "document.", documents), (DATA, "rule_name", "rule.", data)]:
        yield Part("crates/graphql_faults/src/rule_names.rt", function, inside(f"pub(crate) fn {function}(", "match "), name_lines(enum, e))
        yield Part("crates/graphql_faults/specs/DetailsNames.antt", function, below(f"abbrev pub {function} "),
                   equations(function, e, prefix, lambda entry: f'codes "{entry.name}"', alphabet))


def lasting_parts(data, documents):
    code, specs = "crates/graphql_validation/src/filters.rt", "crates/graphql_validation/specs/Lasts.antt"
    # Those that are told of documents alone come first.
    passing, lasting = (sorted((entry for entry in e if "lasts" in entry.lines), key=lambda entry: len(entry.stages())) for e in (data, documents))
    for function, enum, type_name, e, is_so, front in [
        ("data_lasts", DATA, "Diagnostic", passing, "false", "use Rattle.rule_definitions.specs.Diagnostics.{Diagnostic, "),
        ("breach_lasts", "BuildError", "DocumentBreach", lasting, "true", "use Rattle.fault_document_errors.specs.DocumentBreaches.{DocumentBreach, "),
    ]:
        yield Part(code, function, matched(f"fn {function}("), matches_lines(enum, e))
        yield Part(specs, f"the import of {type_name}", line(front), imported(front, e))
        yield Part(specs, function, below(f"  abbrev pub {function} "), lasts_lines(function, e, is_so))


def parts(book):
    """All parts that are written from the rulebook."""
    folding, data, documents = book["BuildError of schemas"], book["DiagnosticData"], book["BuildError of documents"]
    return [*folding_parts(folding), *data_parts(data), *document_parts(documents), *name_parts(folding, data, documents), *lasting_parts(data, documents)]


# ---- check, write, count


def wrong_parts(found):
    """A line for each part that is not what the rulebook makes."""
    for part in found:
        lines = sources.read(part.path).split("\n")
        start, end = part.find(lines)
        there = lines[start:end]
        if there != part.made:
            number = next((n for n, (a, b) in enumerate(zip(there, part.made)) if a != b), min(len(there), len(part.made)))
            yield f"{part.path}:{start + number + 1}: {part.name} is not what {BOOK} makes; scripts/rulebook.py --write makes it"


def write(found):
    for path in sorted({part.path for part in found}):
        before = sources.read(path)
        lines = before.split("\n")
        for part in found:
            if part.path == path:
                start, end = part.find(lines)
                lines[start:end] = part.made
        if "\n".join(lines) == before:
            continue
        with open(os.path.join(sources.TOP, path), "w", encoding="utf-8") as file:
            file.write("\n".join(lines))
        print(f"{path} is written")


def count(found):
    """How many lines of each file are written."""
    total = 0
    for path in sorted({part.path for part in found}):
        lines = sources.read(path).split("\n")
        written = sum(end - start for start, end in (part.find(lines) for part in found if part.path == path))
        total += written
        yield f"{written:5} of {len(lines) - 1:5} lines of {path}"
    yield f"{total:5} lines in {len(found)} parts, from {sum(1 for text in sources.read(BOOK).split(chr(10)) if text)} of {BOOK}"


def main(words):
    book = entries()
    malformed = [f"{BOOK}:{entry.line}: {text}" for enum in book for entry in book[enum] for text in entry.wrong(enum)]
    if malformed:
        print("\n".join(malformed))
        return 1
    found = parts(book)
    lost = [f"{part.path}: {part.name} is not there" for part in found if part.find(sources.read(part.path).split("\n")) is None]
    if lost:
        print("\n".join(lost))
        return 1
    if "--write" in words:
        write(found)
    elif "--count" in words:
        print("\n".join(count(found)))
    elif "--check" in words:
        wrong = list(wrong_parts(found))
        print("\n".join(wrong + [f"rulebook: {sum(map(len, book.values()))} entries, {len(found)} parts, {len(wrong)} wrong"]))
        return 1 if wrong else 0
    else:
        for part in found:
            where = part.find(sources.read(part.path).split("\n"))
            print(f"{part.path}:{where[0] + 1}: {part.name}, {where[1] - where[0]} lines")
    return 0


if __name__ == "__main__":
    sys.exit(main(sys.argv[1:]))
