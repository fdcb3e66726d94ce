#!/usr/bin/env python3
"""Which definitions the promises rest on: scripts/believed.py [--names] [--why FILE] [--of NAME] [--others] [--write] [--check]

Prints the files of `specs/` that the clauses of the users' crates reach, in reading order: by the areas of docs/MAP.md, in each a
crate after those that it depends on, and in a crate as its `Lib.antt` has them.

A clause is `requires`, `ensures` or `follows` of a public function, or what an `impl` of a trait says by a `ghost` word
(`output`, `is_clone`, ..). Public are the items that `lib.rt` of one of the users' crates gives, where it takes them from an
inner crate those of that crate, and the functions that C calls. A clause reaches the definitions that it names, and a definition those that it names.

An invariant of a public type is about its private fields: what follows from it is had by a clause of some call. So what
invariants alone reach is printed last, and counts for nothing.

--names prints the reached definitions of each file too. --why FILE (a path or a name such as `NumberedDefinition`) prints by which
definitions a clause leads to it. --of NAME prints how much a definition rests on: the definitions that it reaches, their files,
and their lines without comments, those of the book apart. --others prints the files that nothing reaches so and that do not say that they are private:
those of laws (of crates and sources of laws), of public functions of inner crates, and the rest. --write writes the two lists of
docs/DEFINITIONS.md, of these files and of those that laws alone reach: each on which `IsYes` rests with its first sentence, the
others by their names. --check prints what is wrong, a line each: a reached file that says in its first line that it is private; a
definition of a reached file that nothing in a source and no definition that is named so names; a list of docs/DEFINITIONS.md that
is not what the sources make; that docs/HEADLINE.md does not say how much `IsYes` rests on; that this reaches a rule's fault. The
status is then 1.
"""
import os
import re
import sys

import sources
from sources import TOP, USERS, Definition

# What an `impl` says by a ghost word and is no promise by itself: a view of private fields, proofs, and imports.
NO_PROMISE = {"view", "coded", "laws", "respects_eq", "matches_eq", "matches_partial_cmp", "total", "same_text", "use", "invariant"}

PAGE = "docs/DEFINITIONS.md"

# The page on what a yes is, its definition, and the crate of its chapters.
HEADLINE, YES, BOOK = "docs/HEADLINE.md", "IsYes", "book_validity"

# The files that say what breaks a rule, and what is told of it.
FAULTS = {"Diagnostics", "DocumentBreaches", "BuildErrors", "DocumentFaults"}

# The lines of the page after which the lists are, each up to the next empty line.
LIST = "<!-- what promises reach: scripts/believed.py --write makes this list -->"
LAWS = "<!-- what laws alone reach: scripts/believed.py --write makes this list -->"


class Exports:
    """What the crates give: of each name the crate and the file in which the item stands."""

    def __init__(self):
        self.known = {}
        self.texts = {}

    def text(self, path):
        if path not in self.texts:
            self.texts[path] = sources.read(path)
        return self.texts[path]

    def of(self, crate):
        """The items of a crate: name, and (crate, file, name there)."""
        if crate in self.known:
            return self.known[crate]
        self.known[crate] = found = {}
        root = next((path for path in (f"crates/{crate}/src/lib.rt", f"crates/{crate}/src/main.rt") if os.path.exists(os.path.join(TOP, path))), None)
        if root is None:
            return found
        text = self.text(root)
        for module in re.findall(r"^pub mod (\w+);", text, re.M):
            path = f"crates/{crate}/src/{module}.rt"
            for function in sources.functions(self.text(path)):
                if function.is_public:
                    found[f"{module}::{function.name}"] = (crate, path, function.name)
            self.take(crate, path, found, f"{module}::")
        self.take(crate, root, found, "")
        for item in re.finditer(r"^pub (?:fn|struct|enum|trait|type|const) (\w+)", sources.masked(text), re.M):
            found[item.group(1)] = (crate, root, item.group(1))
        return found


    def take(self, crate, path, found, front):
        """Adds what a source of the crate re-exports."""
        for is_public, way, name, under in sources.uses(self.text(path)):
            steps = [step for step in way.split("::") if step != "crate"]
            if not is_public or not steps:
                continue
            own = f"crates/{crate}/src/{steps[0]}.rt"
            if os.path.exists(os.path.join(TOP, own)):
                found[front + under] = (crate, own, name)
            elif os.path.isdir(os.path.join(TOP, "crates", steps[0])):
                below = self.of(steps[0]).get("::".join(steps[1:] + [name]))
                if below:
                    found[front + under] = below


class Clause:
    """A clause of a public item: where it stands, of what, its words, and what its names stand for."""

    def __init__(self, path, line, of, kind, text, scope):
        self.path, self.line, self.of, self.kind, self.text, self.scope = path, line, of, kind, text, scope

    def where(self):
        return f"{self.path}:{self.line}: {self.of}: {self.kind}"


def public_clauses(library):
    """The clauses of all public items of the users' crates."""
    exports = Exports()
    items = {target for crate in USERS for target in exports.of(crate).values()}
    types = {(crate, name) for crate, _, name in items}
    names = {name for _, _, name in items}
    free = {(path, name) for _, path, name in items}
    traits = {found for crate in {crate for crate, _, _ in items} for found in traits_of(crate)}
    clauses = []
    for crate in sorted({crate for crate, _, _ in items}):
        for path in sources.paths(f"crates/{crate}/src/*.rt"):
            clauses += clauses_of(library, path, crate, types, names, free, traits)
    return clauses


def traits_of(crate):
    """The traits that a crate declares."""
    found = set()
    for path in sources.paths(f"crates/{crate}/src/*.rt"):
        found |= set(re.findall(r"^(?:pub(?:\([a-z]+\))? )?trait (\w+)", sources.read(path), re.M))
    return found


def inner_clauses(library, paths):
    """The clauses of all public functions of these sources."""
    found = []
    for path in paths:
        text = sources.read(path)
        bare = sources.masked(text)
        scope = library.scope([use for _, use in sources.ghost_uses(text)])
        for function in sources.functions(text, bare):
            if function.is_public:
                found += [Clause(path, line, function.name, kind, words, scope) for kind, _, words, line in function.clauses]
    return found


def exported_clauses(library):
    """The clauses of the functions that C calls."""
    return inner_clauses(library, [path for path in sources.paths("crates/*/src/*.rt") if "#[unsafe(no_mangle)]" in sources.read(path)])


def laws():
    """The sources of laws."""
    crates = [crate for crate in sources.crates() if crate.endswith("_laws")] + next(c for area, c in areas() if area == "written and read again")
    return sorted({path for crate in crates for path in sources.paths(f"crates/{crate}/src/*.rt")} | set(sources.paths("crates/*/src/laws.rt")))


def others(library, files):
    """The files that no clause of the users' crates reaches and that do not say that they are private, in three lists."""
    left = [path for path in library.files if path not in files and not path.endswith("/Lib.antt") and not library.files[path].is_private()]
    of_laws = files_of(reach(library, inner_clauses(library, laws())))
    of_inner = files_of(reach(library, inner_clauses(library, sources.paths("crates/*/src/*.rt"))))
    return [
        ("laws reach", [path for path in left if path in of_laws]),
        ("public functions of inner crates reach", [path for path in left if path in of_inner and path not in of_laws]),
        ("neither reaches", [path for path in left if path not in of_inner and path not in of_laws]),
    ]


def clauses_of(library, path, crate, types, names, free, traits):
    """The public clauses of a source."""
    text = sources.read(path)
    bare = sources.masked(text)
    blocks = sources.blocks(bare)
    uses = sources.ghost_uses(text)
    found = []

    def scope_at(block):
        inside = lambda at: any(b.opened < at < b.end for b in blocks)
        return library.scope([use for at, use in uses if not inside(at) or (block and block.opened < at < block.end)])

    def add(of, kind, words, line, scope):
        found.append(Clause(path, line, of, kind, words, scope))

    outer = scope_at(None)
    for function in sources.functions(text, bare):
        block = next((b for b in blocks if b.opened < function.start < b.end), None)
        if block is None:
            if function.is_public and (path, function.name) in free:
                for kind, label, words, line in function.clauses:
                    add(function.name, f"{kind} {label}".strip(), words, line, outer)
        elif is_public_block(block, crate, types, names, traits) and (function.is_public or block.trait):
            scope = scope_at(block)
            for kind, label, words, line in function.clauses:
                add(f"{block.of or block.trait}::{function.name}", f"{kind} {label}".strip(), words, line, scope)
    for block in blocks:
        if not is_public_block(block, crate, types, names, traits):
            continue
        scope = scope_at(block)
        for word in re.finditer(r"^    ghost (\w+) ?[=:]\s*\{", bare[block.opened : block.end], re.M):
            at = block.opened + word.end() - 1
            words = text[at + 1 : sources.closing(bare, at) - 1]
            if word.group(1) == "invariant" or word.group(1) not in NO_PROMISE:
                add(f"{block.trait} for {block.of}" if block.of else block.trait, word.group(1), words, text.count("\n", 0, at) + 1, scope)
    for item in re.finditer(r"^pub (?:struct|enum) (\w+)[^{;]*\{", bare, re.M):
        if (crate, item.group(1)) in types:
            at = item.end() - 1
            end = sources.closing(bare, at)
            for field in re.finditer(r"^    ghost (\w+): \{", bare[at:end], re.M):
                opened = at + field.end() - 1
                add(item.group(1), "invariant " + field.group(1), text[opened + 1 : sources.closing(bare, opened) - 1], text.count("\n", 0, opened) + 1, outer)
    return found


def is_public_block(block, crate, types, names, traits):
    """Whether what a block has is public: of a type or a trait that is, and of no trait of the repository that is not."""
    if block.is_trait:
        return (crate, block.trait) in types
    if block.trait in traits and block.trait not in names:
        return False
    return block.of in names or (crate, block.trait) in types


def reach(library, clauses):
    """What clauses reach: of each definition, or file, what leads to it."""
    scopes, came, left = {}, {}, []

    def add(target, by):
        key = target.key() if isinstance(target, Definition) else (target, None)
        if key not in came:
            came[key] = by
            left.append(target)

    for clause in clauses:
        for target in library.named(clause.text, clause.scope):
            add(target, clause)
    while left:
        here = left.pop(0)
        if not isinstance(here, Definition):
            continue
        if here.path not in scopes:
            scopes[here.path] = library.scope_of(here.path)
        for target in library.named(here.text(), scopes[here.path]):
            if target is not here:
                add(target, here)
    return came


def areas():
    """The crates of each area of docs/MAP.md, in its order."""
    text = sources.read("docs/MAP.md").split("\n## The areas\n")[1].split("\n## ")[0]
    known = sources.crates()
    rows = [line.strip("|").split("|", 1) for line in text.split("\n") if line.startswith("| ")]
    return [(area.strip(), [name for name in re.findall(r"`(\w+)`", rest) if name in known]) for area, rest in rows]


def crates_in_order():
    """The crates by area, in each after those that they depend on."""
    needs, order = sources.crates(), []

    def visit(crate, among):
        if crate in among and crate not in order:
            for below in needs[crate]:
                visit(below, among)
            order.append(crate)

    for _, among in areas():
        for crate in needs:
            visit(crate, among)
    return order + [crate for crate in needs if crate not in order]


def in_order(library, files):
    """Files in reading order."""
    crates = crates_in_order()

    def key(path):
        crate, file = path.split("/")[1], path.split("/")[3][: -len(".antt")]
        modules = library.files[f"crates/{crate}/specs/Lib.antt"].modules
        return crates.index(crate), modules.index(file) if file in modules else len(modules), file

    return sorted(files, key=key)


def listed(library, files):
    """A list of the page: by areas a line for each file on which a yes rests, with its first sentence, and one for the others."""
    lines, ordered, yes = [], in_order(library, files), {path for path, _ in rests_on(library, YES)}
    link = lambda path: f"[{os.path.basename(path)[:-5]}](../{path})"
    for area, among in areas():
        own = [crate for crate in crates_in_order() if crate in among and any(path.split("/")[1] == crate for path in ordered)]
        if own:
            lines.append(f"- **{area}**")
        for crate in own:
            here = [path for path in ordered if path.split("/")[1] == crate]
            others_here = ", ".join(link(path) for path in here if path not in yes)
            lines.append(f"  - `{crate}`" + f" ({others_here})" * bool(others_here))
            lines += [f"    - **{link(path)}** {shortened(first_sentence(library.files[path]))}" for path in here if path in yes]
    return "\n".join(lines) + "\n"


def shortened(sentence):
    """A sentence with the sections of October 2021 by their numbers alone."""
    return re.sub(r"GraphQL,? October 2021, (?:sections? )?", "", sentence)


def rests_on(library, name):
    """What a definition reaches, itself among it: paths and names."""
    start = next(file.definitions[name] for file in library.files.values() if name in file.definitions)
    came = {key for key in reach(library, [Clause(start.path, start.line, name, "definition", name, library.scope_of(start.path))]) if key[1]}
    return came | {start.key()}


def size(library, name):
    """How much a definition rests on, in a line."""

    def of(keys):
        lines = sum(len(library.files[path].definitions[part].parts) for path, part in keys)
        return len(keys), len({path for path, _ in keys}), f"{lines:,}"

    came = rests_on(library, name)
    return "%s: %d definitions in %d files, %s lines; of these the book %d in %d, %s" % (name, *of(came), *of({key for key in came if key[0].split("/")[1] == BOOK}))


def first_sentence(file):
    """The first sentence of a file."""
    words = []
    for line in file.text.split("\n"):
        if not line.startswith("--"):
            break
        words.append(line.lstrip("- ").strip())
    found = re.match(r"(.+?(?<!\.)\.)(?: |$)", " ".join(words))
    return found.group(1) if found else words[0]


def unnamed(library, files):
    """The definitions of these files that no source names, nor a definition that one leads to: their path and name."""
    everything = []
    for path in sources.paths("crates/*/src/*.rt"):
        text = sources.read(path)
        words = re.sub(r"^\s*(?:pub )?(?:ghost )?use .*$", "", text, flags=re.M)
        everything.append(Clause(path, 1, path, "source", words, library.scope([use for _, use in sources.ghost_uses(text)])))
    came = reach(library, everything)
    return [(path, name) for path in in_order(library, files) for name in library.files[path].definitions if (path, name) not in came]


def way(came, key):
    """By what a clause leads to a definition: lines, from the clause down."""
    lines = []
    while key in came:
        lines.append(f"{key[0]}: {key[1] or 'the file'}")
        by = came[key]
        if isinstance(by, Clause):
            return [by.where(), *reversed(lines)]
        key = by.key()
    return list(reversed(lines))


def files_of(came):
    """The files, each with the names of its reached definitions."""
    found = {}
    for path, name in came:
        found.setdefault(path, set())
        if name:
            found[path].add(name)
    return {path: names for path, names in found.items() if not path.endswith("/Lib.antt")}


def main(words):
    library = sources.Library()
    clauses = public_clauses(library) + exported_clauses(library)
    promises = [clause for clause in clauses if not clause.kind.startswith("invariant")]
    came = reach(library, promises)
    files = files_of(came)
    if "--why" in words:
        wanted = words[words.index("--why") + 1]
        everything = reach(library, clauses)
        for key in everything:
            if key[0] == wanted or os.path.basename(key[0]) == wanted + ".antt":
                print("\n    ".join(way(came if key in came else everything, key)))
        return 0
    if "--of" in words:
        print(size(library, words[words.index("--of") + 1]))
        return 0
    if "--others" in words:
        for title, paths in others(library, files):
            print(f"{title} ({len(paths)}):")
            for path in in_order(library, paths):
                print(f"  {path}: {library.files[path].first.lstrip('- ')}")
        return 0
    wrong = []
    for path in in_order(library, files):
        if library.files[path].is_private():
            wrong.append(f"{path}: is reached, and says that it is private: {' > '.join(way(came, next(k for k in came if k[0] == path)))}")
    for path, name in unnamed(library, files) if "--check" in words else []:
        wrong.append(f"{path}: nothing names `{name}` but proofs, if they do")
    text = sources.read(PAGE)
    lists = {LIST: listed(library, files), LAWS: listed(library, others(library, files)[0][1])}
    if "--write" in words:
        for mark, wanted in lists.items():
            head, rest = text.split(mark, 1)
            text = head + mark + "\n" + wanted.rstrip("\n") + rest[rest.index("\n\n") :]
        with open(os.path.join(TOP, PAGE), "w", encoding="utf-8") as file:
            file.write(text)
        return 0
    for mark, wanted in lists.items():
        if mark + "\n" + wanted + "\n" not in text:
            wrong.append(f"{PAGE}: a list is not what the sources make; scripts/believed.py --write makes it")
    if size(library, YES) not in sources.read(HEADLINE):
        wrong.append(f"{HEADLINE}: does not say `{size(library, YES)}`")
    for path, name in sorted(rests_on(library, YES)):
        if os.path.basename(path)[:-5] in FAULTS:
            wrong.append(f"{path}: `{YES}` reaches `{name}`, and the file is one of faults")
    if "--check" in words:
        print("\n".join(wrong + [f"believed: {len(files)} files, {len(wrong)} wrong"]))
        return 1 if wrong else 0
    for path in in_order(library, files):
        print(path + (": " + ", ".join(sorted(files[path])) if "--names" in words else ""))
    alone = set(files_of(reach(library, clauses))) - set(files)
    if alone:
        print("\nby invariants alone:")
        for path in in_order(library, alone):
            print(path)
    return 0


if __name__ == "__main__":
    sys.exit(main(sys.argv[1:]))
