#!/usr/bin/env python3
"""The page of promises, made from the sources and docs/promises.txt: scripts/promises.py [--write] [--check] [--left]

docs/promises.txt has a section for one crate or some, and in it a row for each promise: what is promised, in plain words, and by
what. Where a row has no words, its promise is the first sentence of the comment of the function that it names first. Its head says
the form.

--write writes docs/PROMISES.md. --check prints a line for each thing that is wrong; its status is then 1:

- a function that a row names is not in the crates of its section, is not public, or has neither `ensures` nor `follows`;
- a clause is none of that function's, or these clauses do not name the definition in brackets;
- a row counts other functions, or types of an impl, than there are;
- a public function with a contract, a clause of one, or an impl that says something by a ghost word is in no row. Public is what
  the users' crates give, as scripts/believed.py finds it, and what C calls;
- a crate of crates.txt is in no section, or in two; what "tested" names has no test; the page is not what this makes.

--left prints what is in no row, by crates and types, to be counted or named.
"""
import fnmatch
import os
import re
import sys

import believed
import sources
from sources import TOP

PAGE, SOURCE = "docs/PROMISES.md", "docs/promises.txt"
WORDS = ("inner", "intro", "tested", "open", "last")

HEAD = """# Promises

What is proved of each crate, and by which functions and clauses: the clause is the statement, a line says it in short. A function without clauses after it stands for all of its own, a trait for its impls, and `*` for all names that no other line has. Each clause that users can rely on is here: `scripts/promises.py --check` refuses a page that leaves one out. "Tested" is what tests alone show; "open" is neither proved nor tested. [HEADLINE.md](HEADLINE.md) has the top promise, [RULES.md](RULES.md) each rule, [FAQ.md](FAQ.md) what no contract can say.
"""


# ---- docs/promises.txt


class Name:
    """A name of a row: what it names, the definitions in brackets after it, and how many it stands for, where it counts them."""

    def __init__(self, text):
        found = re.fullmatch(r"((?:impl |invariant )?[^\s()]+(?: for [^\s()]+)?)(?: \(([\w, ]+)\))?(?: (\d+))?", text)
        if not found:
            raise SystemExit(f"{SOURCE}: `{text}` is no name")
        self.word, self.definitions = found.group(1), (found.group(2) or "").replace(",", "").split()
        self.count = int(found.group(3)) if found.group(3) else None

    def rank(self, section):
        """0 for what is named by itself; of what is counted 1 with one name, 2 with `*`, and 3 in all crates."""
        return 0 if self.count is None else 3 if not section.crates else 2 if "*" in self.word else 1

    def shown(self):
        kind, _, rest = self.word.rpartition(" ") if self.word.startswith("invariant") else ("", "", self.word)
        brackets = ", ".join(f"`{name}`" for name in self.definitions)
        return f"{'invariant of ' * bool(kind)}`{rest.removeprefix('impl ')}`" + (f" ({brackets})" if brackets else "")


class Part:
    """Names with the clauses that are meant of each, none where all are."""

    def __init__(self, text, before):
        names, _, labels = text.partition(": ")
        self.is_same = names == "same"
        self.names = before.names if self.is_same else [Name(name) for name in re.split(r", (?![^(]*\))", names)]
        self.labels = labels.split(", ") if labels else []

    def shown(self):
        names = "the same" if self.is_same else ", ".join(name.shown() for name in self.names)
        return names + (": " + ", ".join(f"`{label}`" for label in self.labels) if self.labels else "")


class Row:
    """A promise: its words, empty where they are to come from the source, and the parts by which it is stated."""

    def __init__(self, line, says):
        self.line, self.says, self.parts = line, says, []


class Section:
    """Crates with their promises, in an area of the page; without crates it is about all of them."""

    def __init__(self, area, crates, line):
        self.area, self.crates, self.line, self.rows, self.words = area, crates, line, [], {}

    def all_crates(self):
        return self.crates + self.words.get("inner", "").split()

    def parts(self):
        return [(row, part) for row in self.rows for part in row.parts]


def whole_lines(text):
    """The lines with their numbers, without comments and empty ones; a line that begins with six spaces continues the one before."""
    found = []
    for number, line in enumerate(text.split("\n"), 1):
        if line.startswith("      ") and found:
            found[-1] = (found[-1][0], f"{found[-1][1]} {line.strip()}")
        elif line.strip() and not line.startswith("#"):
            found.append((number, line.rstrip()))
    return found


def take_line(section, number, key, said):
    """Takes a line with a key into a section. Whether it is one of its keys."""
    if key == "says":
        section.rows.append(Row(number, said))
    elif key == "by":
        if not section.rows or section.rows[-1].parts:
            section.rows.append(Row(number, ""))
        for text in said.split("; "):
            parts = section.parts()
            section.rows[-1].parts.append(Part(text, parts[-1][1] if parts else None))
    elif key in WORDS:
        section.words[key] = said
    else:
        return False
    return True


def sections_of(text):
    """The sections of docs/promises.txt. It ends the program at a line that has not the form."""
    found, area = [], ""
    for number, line in whole_lines(text):
        spoken = re.match(r"  (\w+) +(.+)$", line)
        if line.startswith("==== "):
            area = line[5:]
            found.append(Section(area, [], number))
        elif line.startswith("---- "):
            found.append(Section(area, line[5:].split(), number))
        elif not (spoken and found and take_line(found[-1], number, *spoken.groups())):
            raise SystemExit(f"{SOURCE}:{number}: `{line.strip()}` is no line of a section")
    return [section for section in found if section.rows or section.words]


# ---- what states something


class Stated:
    """A function, or an impl that says something by a ghost word: where it is, its name, its comment, and its clauses.

    The name of a function of a type or a trait is `Type::name`; `also` is `Trait::name`, where an impl of a trait has it. That of an
    impl is `impl Trait for Type`; `times` is how many of this name the file has, for other parameters of the trait."""

    def __init__(self, path, name, is_public=True, labels=(), text="", comment="", also="", times=1):
        self.path, self.name, self.is_public, self.also, self.times = path, name, is_public, also, times
        self.labels, self.text, self.comment = list(labels), text, comment
        self.crate = path.split("/")[1]

    def key(self):
        return self.path, self.name

    def answers_to(self, word):
        """Whether a word, in which `*` stands for any letters, is its name: the whole, or for a function the last part."""
        names = [self.name, self.also]
        if "::" not in word and not word.startswith("impl "):
            names = [name.split("::")[-1] for name in names if not name.startswith("impl ")]
        return any(fnmatch.fnmatchcase(name, word) or fnmatch.fnmatchcase(name, word + " for *") for name in names)


def functions_of(path, text):
    """The functions of a source, those with no contract too."""
    bare = sources.masked(text)
    blocks = sources.blocks(bare)
    for function in sources.functions(text, bare):
        block = next((it for it in blocks if it.opened < function.start < it.end), None)
        of = f"{block.of or block.trait}::" if block else ""
        also = f"{block.trait}::{function.name}" if block and block.trait else ""
        clauses = [(label.split()[-1] if label else "", words) for kind, label, words, _ in function.clauses if kind in ("ensures", "follows")]
        yield Stated(path, of + function.name, function.is_public or bool(also), [label for label, _ in clauses],
                     " ".join(words for _, words in clauses), " ".join(function.comment.split()), also)


def relied_on(clauses):
    """What users can rely on, out of public clauses: the keys of functions, and the impls."""
    functions, impls = set(), {}
    for clause in clauses:
        kind = clause.kind.split()[0]
        if kind in ("ensures", "follows"):
            functions.add((clause.path, clause.of))
        elif " for " in clause.of and kind not in ("requires", "decreases", "invariant", "Value"):
            impls.setdefault((clause.path, f"impl {clause.of}"), []).append((kind, clause.text))
    return functions, [impl_of(*key, said) for key, said in impls.items()]


def impl_of(path, name, said):
    """An impl, of its ghost words and what they say."""
    kinds = [kind for kind, _ in said]
    return Stated(path, name, text=" ".join(text for _, text in said), times=kinds.count(kinds[0]))


class Sources:
    """All that states something; what users can rely on, with its clauses; and the texts of definitions by their names."""

    def __init__(self, stated, relied, definitions):
        self.stated, self.relied, self.definitions = stated, relied, definitions

    @staticmethod
    def read():
        library, definitions = sources.Library(), {}
        for file in library.files.values():
            for name, made in file.definitions.items():
                definitions[name] = f"{definitions.get(name, '')} {made.text()}"
        functions, impls = relied_on(believed.public_clauses(library) + believed.exported_clauses(library))
        stated = [it for path in sources.paths("crates/*/src/*.rt") for it in functions_of(path, sources.read(path))]
        relied = {it.key(): set(it.labels) for it in stated if it.key() in functions}
        return Sources(stated + impls, {**relied, **{it.key(): {""} for it in impls}}, definitions)

    def called(self, word, crates):
        """What has this name, in these crates, or in all where there are none; `crate::name` is that of one of them."""
        crate, colons, rest = word.partition("::")
        word, crates = (rest, [crate]) if colons and crate in crates else (word, crates)
        return [it for it in self.stated if (not crates or it.crate in crates) and it.answers_to(word)]

    def has_definition(self, text, name):
        """Whether a text names a definition, or a definition that does."""
        names = lambda part: re.findall(r"[^\s(){}\[\],;.]+", part)
        return name in names(text) or any(name in names(self.definitions.get(it, "")) for it in names(text))

    def comment(self, target):
        """The comment of a function, or that of the trait's."""
        others = [it.comment for it in self.stated if target.also and it.name == target.also and it.comment]
        return target.comment or (others or [""])[0]


# ---- what a row names


def is_stating(target):
    return target.name.startswith("impl ") or (target.is_public and target.labels)


def has_invariant(kind, crates):
    """Whether a type of these crates has an invariant."""
    for path in (path for crate in crates for path in sources.paths(f"crates/{crate}/src/*.rt")):
        text = sources.read(path)
        inside = re.search(rf"^pub struct {kind}\b[^{{;]*\{{(.*?)^\}}", text, re.M | re.S)
        if inside and re.search(r"^    ghost \w+: \{", inside.group(1), re.M):
            return True
        if re.search(rf"^impl[^\n]* Model for {kind}\b.*?^    ghost invariant = ", text, re.M | re.S):
            return True
    return False


class Judged:
    """What the rows of the sections name: the targets of each name, what is wrong, and what is covered, by which clauses."""

    def __init__(self, sections, known):
        self.sections, self.known = sections, known
        self.targets, self.wrong, self.covered = {}, [], {}
        parts = [(section, row, part) for section in sections for row, part in section.parts()]
        # What counts stands for what no other row names, and no row of a section that counts fewer things.
        ranked = [(name.rank(section), section, row, name) for section, row, part in parts for name in part.names if not part.is_same]
        for _, section, row, name in sorted(ranked, key=lambda it: it[0]):
            self.targets[name] = self.found(section, row, name)
        for _, row, part in parts:
            self.take(row, part)

    def say(self, row, words):
        self.wrong.append(f"{SOURCE}:{row.line}: {words}")

    def found(self, section, row, name):
        """The targets of a name."""
        crates = section.all_crates()
        if name.word.startswith("invariant "):
            if not has_invariant(name.word.split()[1], crates):
                self.say(row, f"`{name.word.split()[1]}` has no invariant")
            return []
        if name.word.endswith(".antt"):
            if not any(os.path.exists(os.path.join(TOP, "crates", crate, name.word)) for crate in crates):
                self.say(row, f"`{name.word}` is the name of no file")
            return []
        called = self.known.called(name.word, crates)
        found = [it for it in called if is_stating(it)]
        if name.count is not None:
            named = {it.key() for targets in self.targets.values() for it in targets}
            found = [it for it in found if it.key() not in named]
            there = sum(it.times for it in found)
            if there != name.count:
                self.say(row, f"`{name.word}` stands for {there}, not {name.count}: {', '.join(it.name for it in found)}")
        elif len(found) != 1:
            self.say(row, f"`{name.word}` {why_not_one(called, found)}")
        return found

    def take(self, row, part):
        """Checks the clauses and the definitions of a part, and notes what it covers."""
        for name in part.names:
            for target in self.targets[name]:
                for label in part.labels:
                    if label not in target.labels:
                        self.say(row, f"`{label}` is no clause of `{target.name}`")
                labels = part.labels or target.labels or [""]
                self.covered.setdefault(target.key(), set()).update(labels)
            text = " ".join(target.text for target in self.targets[name])
            for definition in name.definitions:
                if not self.known.has_definition(text, definition):
                    self.say(row, f"`{definition}` is in no clause of `{name.word}`")

    def left_out(self):
        """What users can rely on and no row names: the key, and the clauses of it."""
        for key, labels in sorted(self.known.relied.items()):
            left = sorted(labels - self.covered.get(key, set()))
            if left:
                yield key, (left if key in self.covered else [])

    def says(self, row):
        """The words of a row, or the first sentence of the comment of what it names first."""
        if row.says:
            return row.says
        targets = self.targets[row.parts[0].names[0]]
        comment = self.known.comment(targets[0]) if targets else ""
        if not comment:
            self.say(row, "no words, and the function has no comment")
        return re.sub(r"\[(`[^`]+`)\](?!\()", r"\1", re.match(r"(.*?(?<!\.)(?:\.(?= |$)|$))", comment).group(1))


def why_not_one(called, found):
    """Why what has a name is not one public function with a contract."""
    if found:
        return f"is the name of {len(found)}: {', '.join(it.name for it in found)}"
    if not called:
        return "is the name of no function"
    return "is not public" if not any(it.is_public for it in called) else "has no contract"


# ---- the page


def shown_row(judged, row):
    """A line of the page for what is promised, and one for by what."""
    says = judged.says(row)
    return f"- {says}{'' if says.endswith('.') else '.'}\\\n  {'; '.join(part.shown() for part in row.parts)}"


def names_in_row(words):
    return ", ".join(f"`{word}`" for word in words)


def tested(words):
    """The crates that test, and what they alone show, of a `tested`; nothing where there is none."""
    crates, colon, what = words.get("tested", "").partition(": ")
    return crates.split(), what if colon else ""


def shown_section(judged, section):
    """A section of the page."""
    lines, words = [], section.words
    if section.crates:
        lines += [f"### {names_in_row(section.crates)}", ""]
    inner = f"The code is in {names_in_row(words['inner'].split())}." if "inner" in words else ""
    intro = " ".join(filter(None, [words.get("intro", ""), inner]))
    lines += [intro, ""] if intro else []
    lines += [*(shown_row(judged, row) for row in section.rows), ""] if section.rows else []
    crates, what = tested(words)
    by = f"Tested ({names_in_row(crates)}): {what}" if what else f"Tested: {names_in_row(crates)}." if crates else ""
    last = " ".join(filter(None, [by, f"Open: {words['open']}" if "open" in words else "", words.get("last", "")]))
    return lines + ([last, ""] if last else [])


def page_of(judged):
    """The page."""
    lines, area = HEAD.strip().split("\n") + [""], ""
    for section in judged.sections:
        if section.area != area:
            area = section.area
            lines += [f"## {area}", ""]
        lines += shown_section(judged, section)
    return "\n".join(lines).rstrip("\n") + "\n"


# ---- checks


def has_tests(crate):
    """Whether a crate has a `#[test]`, or calls that some row asks for."""
    texts = [sources.read(path) for path in sources.paths(f"crates/{crate}/src/*.rt")]
    if any("#[test]" in text for text in texts):
        return True
    rows = "".join(sources.read(path) for path in sources.paths("crates/row_checker/data/*.rows"))
    calls = set(re.findall(r"^call: (\w+)$", rows, re.M))
    return any(f'"{call}"' in text for call in calls for text in texts)


def wrong_crates(sections, crates):
    """A line for each crate that is in no section or in two, and for each in a section that is none."""
    named = [crate for section in sections for crate in section.all_crates()]
    for crate in [*crates, *named]:
        if named.count(crate) != 1 or crate not in crates:
            yield f"{SOURCE}: `{crate}` is in {named.count(crate)} sections" if crate in crates else f"{SOURCE}: `{crate}` is no crate of crates.txt"


def untested(sections):
    """A line for each crate that is named as what tests, and has no test."""
    for section in sections:
        for crate in tested(section.words)[0]:
            if not has_tests(crate):
                yield f"{SOURCE}:{section.line}: `{crate}` has no test"


def main(words):
    sections = sections_of(sources.read(SOURCE))
    judged = Judged(sections, Sources.read())
    page = page_of(judged)
    left = list(judged.left_out())
    absent = [f"{path}: {name}" + (f": {', '.join(labels)}" if labels else "") for (path, name), labels in left]
    if "--left" in words:
        print("".join(f"{line}\n" for line in absent), end="")
        return 0
    if "--write" in words:
        with open(os.path.join(TOP, PAGE), "w", encoding="utf-8") as file:
            file.write(page)
    elif "--check" not in words:
        print(page, end="")
        return 0
    wrong = judged.wrong + [*wrong_crates(sections, sources.crates()), *untested(sections)]
    wrong += [f"{line} is in no row of {SOURCE}" for line in absent]
    if not os.path.exists(os.path.join(TOP, PAGE)) or sources.read(PAGE) != page:
        wrong.append(f"{PAGE}: is not what {SOURCE} and the sources make; scripts/promises.py --write makes it")
    rows = sum(len(section.rows) for section in sections)
    print("\n".join([*dict.fromkeys(wrong), f"promises: {rows} rows, {len(judged.known.relied)} functions and impls that users rely on, {len(wrong)} wrong"]))
    return 1 if wrong else 0


if __name__ == "__main__":
    sys.exit(main(sys.argv[1:]))
