"""Small breakages of a text: each takes a tree and gives the tree of a text that is near it, often a broken one."""
import re

from .parts import NAME, Part, typed
from .schemas import EXECUTABLE, OF_TYPES

WORDS = ["type", "interface", "union", "enum", "input", "scalar", "query", "mutation", "subscription", "fragment", "on", "schema", "extend",
         "directive", "repeatable", "implements", "true", "false", "null"]
MARKS = ["!", "$", "&", "(", ")", "...", ":", "=", "@", "[", "]", "{", "|", "}"]
STRAY = ["?", "'", '"', "\\", "..", "%", "\x00", "~", "é", "\ufffe", '"""', "#", "01", "1.", "1e", ".5", "-", "0x1", "1a", "1.0.0", '"\\x"', '"\\u00g0"', "1_000", "+1"]
RESERVED = ["__x", "__typename", "__schema", "zz", "Zz", "Int", "String", "ID", "Boolean", "Float", "Query", "__Type", "skip", "include", "deprecated", "specifiedBy"]


def drop(tree, random, _):
    """A construct is left out."""
    found = list(tree.parts())
    holder, index = random.choice(found)
    del holder.items[index]


def repeat(tree, random, _):
    """A construct stands twice."""
    holder, index = random.choice(list(tree.parts()))
    holder.items.insert(index, holder.items[index].copy())


def exchange(tree, random, _):
    """A construct stands for another of its kind."""
    found = list(tree.parts())
    holder, index = random.choice(found)
    kind = holder.items[index].kind
    other, at = random.choice([(h, i) for h, i in found if h.items[i].kind == kind])
    holder.items[index] = other.items[at].copy()


def move(tree, random, _):
    """A construct is moved to where another of its kind is."""
    found = list(tree.parts())
    holder, index = random.choice(found)
    kind = holder.items[index].kind
    other, at = random.choice([(h, i) for h, i in found if h.items[i].kind == kind])
    other.items.insert(at, holder.items[index].copy())
    holder.items.remove(holder.items[index])


def leaf(tree, random, fits):
    """A token that fits, by what holds it and its index; None where there is none."""
    found = [(holder, index) for holder, index in tree.leaves() if fits(holder.items[index])]
    return random.choice(found) if found else (None, None)


def rename(tree, random, schema):
    """A name is another, of those that are there or of those with a meaning."""
    holder, index = leaf(tree, random, NAME.match)
    if holder:
        there = [it for it in tree.tokens() if NAME.match(it)]
        names = [it for it in (schema.tokens() if schema else ()) if NAME.match(it)]
        holder.items[index] = random.choice([random.choice(there), random.choice(names or there), random.choice(RESERVED)])


def underline(tree, random, _):
    """A name begins with two underscores."""
    holder, index = leaf(tree, random, NAME.match)
    if holder:
        holder.items[index] = "__" + holder.items[index]


def revalue(tree, random, schema):
    """A value is another, of any kind."""
    kinds = {"int", "float", "string", "block string", "boolean", "null", "enum value", "list", "object", "variable"}
    found = [(h, i) for h, i in tree.parts() if h.items[i].kind in kinds]
    if found:
        holder, index = random.choice(found)
        old = holder.items[index]
        choices = ["1", "1.5", '"a"', "true", "null", "RED", "zz", "2147483648", "1e400", "$v0", "$zz"]
        holder.items[index] = random.choice([
            Part("value", random.choice(choices)), Part("list", "[", old, "]"), Part("list", "[", old, old.copy(), "]"),
            Part("list", "[", "null", "]"), Part("list", "[", "$v0", "]"), Part("object", "{", Part("object field", "i0", ":", old), "}")])


def rewrap(tree, random, _):
    """A type has a mark or a list more or less, or is another."""
    found = [(h, i) for h, i in tree.parts() if h.items[i].kind == "type"]
    if found:
        holder, index = random.choice(found)
        text = "".join(holder.items[index].tokens())
        inner = text.strip("[]!")
        choices = [text + "!" if not text.endswith("!") else text[:-1], f"[{text}]", f"[{text}]!", re.sub(r"^\[(.*)\]!?$", r"\1", text), inner, inner + "!", f"[{inner}!]"]
        holder.items[index] = typed(random.choice(choices))


def reword(tree, random, _):
    """A keyword or location is another."""
    holder, index = leaf(tree, random, lambda it: it in WORDS or it in EXECUTABLE + OF_TYPES)
    if holder:
        old = holder.items[index]
        holder.items[index] = random.choice(EXECUTABLE + OF_TYPES + ["FIELDS"] if old.isupper() else WORDS)


def remove_token(tree, random, _):
    """A token is left out."""
    holder, index = leaf(tree, random, lambda it: True)
    del holder.items[index]


def add_token(tree, random, _):
    """A token is added: a mark, a word, a name or what is no token."""
    holder, index = leaf(tree, random, lambda it: True)
    holder.items.insert(index + random.randrange(2), random.choice([random.choice(MARKS), random.choice(WORDS), random.choice(STRAY), "a"]))


def swap_tokens(tree, random, _):
    """Two tokens change places."""
    first, second = random.choice(list(tree.leaves())), random.choice(list(tree.leaves()))
    (holder, index), (other, at) = first, second
    holder.items[index], other.items[at] = other.items[at], holder.items[index]


def change_character(tree, random, _):
    """A character of a token is another, or is left out."""
    holder, index = leaf(tree, random, lambda it: True)
    text = holder.items[index]
    at = random.randrange(len(text))
    holder.items[index] = text[:at] + random.choice(["", "", "x", "0", '"', "\\", ".", "é", "\n", " ", "_", "-"]) + text[at + random.randrange(2):]


def direct(tree, random, _):
    """A construct has a directive that is defined, or not, or not for it, or with other arguments."""
    found = list(tree.parts())
    holder, index = random.choice(found)
    kinds = {"field", "fragment spread", "variable definition", "field definition", "argument definition", "input field", "enum value definition",
             "scalar definition", "directive definition"}
    fitting = [h.items[i] for h, i in found if h.items[i].kind in kinds]
    if fitting:
        chosen = random.choice(fitting)
        uses = ["@ d0", "@ d1", "@ zz", "@ skip ( if : true )", "@ skip", "@ include ( if : $v0 )", "@ include ( if : 1 )", "@ deprecated", "@ specifiedBy",
                "@ deprecated ( reason : 1 )", '@ specifiedBy ( url : "u" )', '@ defer ( label : "l" )', "@ d0 ( a0 : 1 )", "@ d0 ( zz : 1 )", "@ d0 ( a0 : 1 a0 : 2 )"]
        at = next((i for i, it in enumerate(chosen.items) if isinstance(it, Part) and it.kind == "selection set"), len(chosen.items))
        chosen.items.insert(at, Part("directive", *random.choice(uses).split(" ")))


def argue(tree, random, _):
    """A field or directive has another argument, or an argument twice."""
    found = [h.items[i] for h, i in tree.parts() if h.items[i].kind == "arguments"]
    if found:
        chosen = random.choice(found)
        chosen.items.insert(1, Part("argument", random.choice(["a0", "a1", "zz", "if", "reason"]), ":", random.choice(["1", '"a"', "null", "true", "$v0"])))


def select(tree, random, schema):
    """A set of selections has one more: a field under a name that may be taken, a fragment, or a set where none may be."""
    sets = [h.items[i] for h, i in tree.parts() if h.items[i].kind == "selection set"]
    if sets:
        names = [it for it in tree.tokens() if NAME.match(it)]
        there = [it for it in schema.tokens() if NAME.match(it)] if schema else names
        one, other, type = random.choice(names), random.choice(there), random.choice(there)
        texts = [f"{one} : {other}", f"{other}", f"... {one}", f"... on {type} {{ __typename }}", "__typename", f"{one} : __typename", f"... on {type} {{ {other} }}",
                 "__schema { types { name } }", '__type ( name : "a" ) { name }', f"{one} {{ {other} }}", f"... {{ {other} : {one} }}"]
        chosen = random.choice(sets)
        chosen.items.insert(random.randint(1, max(1, len(chosen.items) - 1)), Part("selection", *random.choice(texts).split(" ")))


# Breakages, each as often as it is named.
COMMON = [drop, drop, drop, repeat, repeat, exchange, exchange, move, rename, rename, rename, revalue, revalue, rewrap, rewrap, reword, underline, direct, direct,
          argue, remove_token, add_token, swap_tokens, change_character]
OF_DOCUMENTS = COMMON + [select, select, select, revalue, revalue, argue]


def broken(tree, random, schema=None):
    """A copy of a text that is broken once, or now and then twice, and the names of the breakages."""
    made, names = tree.copy(), []
    for _ in range(random.choice([1, 1, 1, 1, 2])):
        chosen = random.choice(OF_DOCUMENTS if schema else COMMON)
        chosen(made, random, schema)
        names.append(chosen.__name__)
        if not any(True for _ in made.leaves()):
            made.items.append("a")
        if not any(True for _ in made.parts()):
            break
    return made, names
