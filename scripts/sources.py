"""What the scripts beside this one read of the sources: crates, definitions of `specs/`, and items and clauses of `src/`.

Nothing is read but the text: files are formatted by `rt fmt`, so an item begins on a line of its own.
"""
import glob
import os
import re

TOP = os.path.dirname(os.path.dirname(os.path.abspath(__file__)))

# The crates that users import, lowest first.
USERS = [
    "graphql_names", "graphql_values", "graphql_ast", "graphql_read", "graphql_schema", "graphql_coords",
    "graphql_documents", "graphql_faults", "graphql_rules", "graphql_validation", "graphql_checked",
]


def read(path):
    """The text of a file, by its path from the top."""
    with open(os.path.join(TOP, path), encoding="utf-8") as file:
        return file.read()


class Crate:
    """A crate of crates.txt: its name, whether it is a library for C, what it depends on, and the area and the words of the comment that
    begins its section; of those before the first section both are empty."""

    def __init__(self, name, is_static, needs, area, words):
        self.name, self.is_static, self.needs, self.area, self.words = name, is_static, needs, area, words

    def line(self):
        """Its line."""
        return f"{self.name}{' staticlib' * self.is_static}: {' '.join(self.needs)}".strip()


def listed(text):
    """The crates that a text of the form of crates.txt lists, in its order."""
    found, section = [], ("", "")
    for line in text.splitlines():
        comment = re.match(r"# (\w+): (.+)$", line)
        crate = re.match(r"(\w+)( staticlib)?:(.*)$", line.split("#")[0].strip())
        if comment:
            section = comment.groups()
        elif crate:
            found.append(Crate(crate.group(1), bool(crate.group(2)), crate.group(3).split(), *section))
    return found


def listed_crates():
    """The crates of crates.txt, in its order."""
    return listed(read("crates.txt"))


def crates():
    """The crates of crates.txt in its order, each with what it depends on, the kit's libraries among them."""
    return {crate.name: crate.needs for crate in listed_crates()}


def all_below(name, needs):
    """A crate and all that it depends on, directly or through others, each after what it depends on; the kit's libraries are left out."""
    found = []

    def visit(crate):
        if crate in needs and crate not in found:
            for low in needs[crate]:
                visit(low)
            found.append(crate)

    visit(name)
    return found


def paths(pattern):
    """The paths from the top that fit the pattern, in order; `**` is any folders, or none."""
    return sorted(os.path.relpath(path, TOP) for path in glob.glob(os.path.join(TOP, pattern), recursive=True))


# ---- definitions of specs/


class Definition:
    """A definition: its name, its file, the line at which it begins, the comment above it, and its text without comments."""

    def __init__(self, name, path, line, comment, indent, is_public):
        self.name, self.path, self.line, self.comment = name, path, line, comment
        self.indent, self.is_public, self.parts, self.around = indent, is_public, [], []

    def text(self):
        """Its text, and what stands around it: the parameters of the modules in which it stands."""
        return "\n".join(self.around + self.parts)

    def key(self):
        return (self.path, self.name)


HEAD = re.compile(r"^( *)((?:abbrev |unfoldable |opaque )?)((?:pub )?)((?:record |data )?)(\S+)(?= |$)")


def uncommented(line):
    """A line of a definition without its comment."""
    at = re.search(r"(^|\s)--(\s|$)", line)
    return line[: at.start()] if at else line


def without_strings(text):
    """The text with nothing within its quotation marks."""
    return re.sub(r'"(?:[^"\\\n]|\\.)*"', '""', text)


class Specs:
    """A file of definitions: what it imports, what it defines, and what it re-exports."""

    def __init__(self, path):
        self.path = path
        self.text = read(path)
        self.first = self.text.split("\n", 1)[0]
        self.imports, self.again = [], []  # (path, names or None, alias or None)
        self.modules = []  # of Lib.antt: the files of the folder
        self.definitions, self.owners = {}, {}  # by name; the definition of which a name is a constructor
        self.read_lines()

    def is_private(self):
        """Whether the first line says that no promise rests on it."""
        return self.first.startswith("-- Private") or bool(re.search(r"\(?\bprivate\b( to this crate)?:|private to this crate|\(private", self.first))

    def define(self, name, number, comment, indent, is_public, around):
        made = Definition(name, self.path, number, comment, indent, is_public)
        made.around = [text for _, text in around]
        self.definitions[name] = made
        return made

    def read_lines(self):
        around, mutual, comment, current, opened = [], [], [], None, None
        for number, line in enumerate(self.text.split("\n"), 1):
            bare = uncommented(line).rstrip()
            if not bare.strip():
                comment = comment + [line.strip().lstrip("-").strip()] if line.strip().startswith("--") else []
                continue
            indent = len(bare) - len(bare.lstrip(" "))
            if opened is not None:  # parameters of a module that go on
                around[-1] = (around[-1][0], around[-1][1] + " " + bare)
                opened = None if bare.endswith(" where") else opened
                continue
            found = re.match(r"(?:unfoldable )?(pub )?use (.+)$", bare)
            if found:
                (self.again if found.group(1) else self.imports).append(import_of(found.group(2)))
                comment = []
                continue
            found = re.match(r"pub mod (\w+)$", bare)
            if found:
                self.modules.append(found.group(1))
                continue
            around = [a for a in around if a[0] < indent]
            mutual = [m for m in mutual if m < indent]
            if re.match(r" *module\b", bare):
                around.append((indent, re.sub(r"^ *module _|where$", "", bare)))
                opened = None if bare.endswith(" where") else indent
                current, comment = None, []
                continue
            if re.match(r" *(abbrev |unfoldable )?mutual$", bare):
                mutual.append(indent)
                current = None
                continue
            if re.match(r" *infix[lr]? ", bare):
                continue
            head = HEAD.match(bare)
            inside = current and current.kind and indent > current.indent  # a field, or a constructor
            starts = head and not inside and head.group(5) != "{" and any(head.group(i) for i in (2, 3, 4))
            if starts:
                current = self.define(head.group(5), number, " ".join(comment), indent, bool(head.group(3)), around)
                current.parts.append(bare)
                current.kind = head.group(4).strip()
            elif current:
                current.parts.append(bare)
                if current.kind == "data":
                    made = re.match(r" +(\S+) :", bare)
                    if made:
                        self.owners[made.group(1)] = current
            comment = []


def named(items):
    """The names between the braces of a `use`, each with the name under which it stands."""
    names = []
    for item in items.split(","):
        name, _, alias = item.strip().partition(" as ")
        if name:
            names.append((name.strip(), (alias or name).strip()))
    return names


def import_of(text):
    """What a `use` names: the path, the names, each with the name under which it stands, and the alias of a module."""
    text = text.strip().rstrip(";")
    found = re.match(r"(\S+?)\.\{(.*)\}$", text)
    if found:
        return found.group(1), named(found.group(2)), None
    path, _, alias = text.partition(" as ")
    return path.strip(), None, (alias or path.rsplit(".", 1)[-1]).strip()


class Library:
    """All definitions of the repository."""

    def __init__(self):
        self.files = {path: Specs(path) for path in paths("crates/*/specs/*.antt")}

    def node(self, path):
        """What a path of an import leads to: the path of a file, ("root", crate), or None for what is not of the repository."""
        parts = path.split(".")
        if len(parts) < 3 or parts[0] != "Rattle" or parts[2] != "specs":
            return None
        here = ("root", parts[1])
        if f"crates/{parts[1]}/specs/Lib.antt" not in self.files:
            return None
        for part in parts[3:]:
            here = self.below(here, part)
            if here is None:
                return None
        return here

    def below(self, here, part):
        """What stands under a name below a root, or in a file that gives a module again."""
        if isinstance(here, str):
            for path, names, alias in self.files[here].again:
                if names is None and alias == part:
                    return self.node(path)
            return None
        lib = self.files[f"crates/{here[1]}/specs/Lib.antt"]
        own = f"crates/{here[1]}/specs/{part}.antt"
        if part in lib.modules and own in self.files:
            return own
        for path, names, alias in lib.again:
            if names is None and alias == part:
                return self.node(path)
        return None

    def find(self, path, name):
        """The definition that has a name in a file, there or in a file that it re-exports; None where there is none."""
        file = self.files[path]
        if name in file.definitions:
            return file.definitions[name]
        if name in file.owners:
            return file.owners[name]
        for target, names, _ in file.again:
            node = self.node(target)
            if isinstance(node, str) and (names is None or name in [alias for _, alias in names]):
                original = name if names is None else next(n for n, alias in names if alias == name)
                found = self.find(node, original)
                if found:
                    return found
        return None

    def scope(self, imports):
        """What names and aliases stand for, as a map to definitions, files and roots."""
        found = {}
        for path, names, alias in imports:
            node = self.node(path)
            if node is None:
                continue
            if names is None:
                found[alias] = node
                continue
            for name, under in names:
                if isinstance(node, str):
                    found[under] = self.find(node, name) or node
                else:
                    below = self.below(node, name)
                    if below:
                        found[under] = below
        return found

    def scope_of(self, path):
        """The scope of a file of definitions, its own names among it."""
        file = self.files[path]
        scope = self.scope(file.imports)
        for target, names, alias in file.again:
            scope.update(self.scope([(target, names, alias)]))
        scope.update(file.owners)
        scope.update(file.definitions)
        return scope

    def named(self, text, scope):
        """The definitions, and the files of names that are none, that a text names."""
        tokens = [token for token in re.split(r"[\s(){}\[\],;]+", without_strings(text)) if token]
        plain = {token.strip(".").lstrip("λ") for token in tokens}
        found = []
        for token in plain:
            parts = token.split(".")
            here = scope.get(parts[0])
            rest = parts[1:]
            while here is not None and not isinstance(here, Definition) and rest:
                below = self.find(here, rest[0]) if isinstance(here, str) else None
                here, rest = below or self.below(here, rest[0]), rest[1:]
            if isinstance(here, (Definition, str)):
                found.append(here)
        for name, target in scope.items():
            if "◌" in name and isinstance(target, Definition):
                words = [word for word in name.split("◌") if word]
                if words and all(word in plain for word in words):
                    found.append(target)
        return found


# ---- items and clauses of src/


def masked(text):
    """A source in which comments, strings and characters are blank."""
    pattern = re.compile(r"""//[^\n]*|/\*.*?\*/|b?"(?:[^"\\]|\\.)*"|b?'(?:[^'\\]|\\.[^']*)'""", re.S)
    return pattern.sub(lambda m: re.sub(r"[^\n]", " ", m.group(0)), text)


def closing(text, at):
    """The place after the bracket that closes the one at a place of a masked source."""
    pairs = {"(": ")", "{": "}", "[": "]"}
    depth, opening, ending = 0, text[at], pairs[text[at]]
    for here in range(at, len(text)):
        if text[here] == opening:
            depth += 1
        elif text[here] == ending:
            depth -= 1
            if depth == 0:
                return here + 1
    return len(text)


class Function:
    """A function of a source: its name, the comment above it, its clauses, and where its text begins and ends."""

    def __init__(self, name, is_public, is_crate_public, comment, clauses, start, end, line):
        self.name, self.is_public, self.is_crate_public = name, is_public, is_crate_public
        self.comment, self.clauses, self.start, self.end, self.line = comment, clauses, start, end, line


FUNCTION = re.compile(r"^([ ]*)((?:pub(?:\((?:crate|super)\))? )?)(?:(?:const|unsafe|ghost|extern) +)*fn (\w+)", re.M)


def comment_above(text, at):
    """The doc comment on the lines above a place, in one line."""
    lines = text[:at].split("\n")[:-1]
    found = []
    while lines and (lines[-1].strip().startswith("///") or lines[-1].strip().startswith("#[") or lines[-1].strip().startswith("ghost ")):
        line = lines.pop().strip()
        if line.startswith("///"):
            found.append(line[3:].strip())
    return "\n".join(reversed(found))


def functions(text, bare=None):
    """The functions of a source, in order."""
    bare = masked(text) if bare is None else bare
    found = []
    for head in FUNCTION.finditer(bare):
        at = head.end()
        if bare[at : at + 1] == "<":
            depth = 0
            while True:
                depth += {"<": 1, ">": -1}.get(bare[at], 0) if bare[at - 1 : at + 1] not in ("->", "=>") else 0
                at += 1
                if depth == 0:
                    break
        at = closing(bare, bare.index("(", at))
        clauses = []
        while True:
            word = re.compile(r"\b(requires|ensures|follows|decreases)\b|[{;]").search(bare, at)
            if word is None:
                end = len(bare)
                break
            if word.group(0) in "{;":
                end = closing(bare, word.start()) if word.group(0) == "{" else word.end()
                break
            opened = bare.index("{", word.end())
            at = closing(bare, opened)
            label = bare[word.end() : opened].strip()
            clauses.append((word.group(1), label, text[opened + 1 : at - 1].strip(), text.count("\n", 0, word.start()) + 1))
        visibility = head.group(2).strip()
        line = text.count("\n", 0, head.start()) + 1
        comment = comment_above(text, head.start())
        found.append(Function(head.group(3), visibility == "pub", visibility.startswith("pub("), comment, clauses, head.start(), end, line))
    return found


class Impl:
    """A block of an `impl` or a trait: the trait, the type, and where it begins and ends."""

    def __init__(self, trait, of, start, opened, end, is_trait):
        self.trait, self.of, self.start, self.opened, self.end, self.is_trait = trait, of, start, opened, end, is_trait


def blocks(bare):
    """The `impl`s and traits of a masked source."""
    found = []
    for head in re.finditer(r"^(impl|(?:pub )?trait)\b([^{;]*)\{", bare, re.M):
        opened = head.end() - 1
        words = head.group(2)
        if head.group(1) == "impl":
            words = without_generics(words.split(" where ")[0]).strip()
            trait, _, of = words.partition(" for ") if " for " in words else ("", "", words)
            found.append(Impl(last_name(trait), last_name(of), head.start(), opened, closing(bare, opened), False))
        else:
            name = re.match(r"\s*(\w+)", words).group(1)
            found.append(Impl(name, "", head.start(), opened, closing(bare, opened), True))
    return found


def without_generics(text):
    """The text without what is in angle brackets."""
    while True:
        shorter = re.sub(r"<[^<>]*>", "", text)
        if shorter == text:
            return text
        text = shorter


def last_name(path):
    """The name at the end of a path of Rust, without references."""
    return path.strip().lstrip("&").replace("mut ", "").strip().split("::")[-1].strip()


def ghost_uses(text):
    """The imports for contracts, each with the place at which it stands."""
    found = []
    for use in re.finditer(r"^\s*ghost use ([^;]+);", text, re.M):
        found.append((use.start(), import_of(re.sub(r"\s+", " ", use.group(1)))))
    return found


def uses(text):
    """The names that a source re-exports and takes from elsewhere: (public, path, name, name here)."""
    found = []
    for use in re.finditer(r"^(pub )?use ([^;]+);", masked(text), re.M):
        path, names, alias = use_of(re.sub(r"\s+", " ", use.group(2)))
        for name, under in names:
            found.append((bool(use.group(1)), path, name, under))
    return found


def use_of(text):
    """The path and the names of a `use` of Rust."""
    text = text.strip()
    found = re.match(r"(.+?)::\{(.*)\}$", text)
    if found:
        return found.group(1).strip(), named(found.group(2)), None
    name, _, alias = text.partition(" as ")
    path, _, last = name.rpartition("::")
    return path, [(last.strip(), (alias or last).strip())], None
