"""Texts that are made to be slow: families of schemas and documents, each of a size in bytes. `growth.py` measures them.

A family is a function of a size that gives a schema and a document, the longer of which has at most so many bytes. Names are as
short as can be, so that as much as possible is in few bytes. FAMILIES has those that were found to be slow, CONSTRUCTS those that
repeat one construct."""

import itertools
import math
import random
import string
from typing import Callable, NamedTuple, Optional

# Names of one character, without q: so a field is called that most schemas here have.
LETTERS = [letter for letter in string.ascii_letters if letter not in "qQ"]


def short_names():
    """The shortest names: those of one character, then those of two, and so on."""
    yield from LETTERS
    for length in itertools.count(1):
        for first, *rest in itertools.product(LETTERS, *[LETTERS + list(string.digits)] * length):
            yield first + "".join(rest)


NAMES = list(itertools.islice(short_names(), 100_000))


def many(n, text, between=" "):
    """The text n times, each # the number."""
    return between.join(text.replace("#", str(i)) for i in range(n))


def filled(size, text, between=""):
    """As many texts one after another as have at most so many bytes: text is one of them, or gives that of a number."""
    parts, left = [], size + len(between)
    for number in itertools.count():
        part = text(number) if callable(text) else text
        left -= len(part) + len(between)
        if left < 0:
            return between.join(parts)
        parts.append(part)


def fits_in(size):
    """Whether texts that are given one after another have at most so many bytes."""
    left = size

    def fits(text):
        nonlocal left
        left -= len(text)
        return left >= 0

    return fits


def operations(size, selected="...F"):
    """Operations that all select the same."""
    return filled(size, lambda i: f"query {NAMES[i]}{{{selected}}}")


def counted(make):
    """The family that takes as many of something as the size allows, where make gives the texts of a number of them."""

    def fits(number, size):
        return max(map(len, make(number))) <= size

    def family(size):
        number = step = 1
        while fits(number + step, size):
            number, step = number + step, 2 * step
        while step > 1:
            step //= 2
            if fits(number + step, size):
                number += step
        return make(number)

    return family


# ---- merging: sets in pairs

# The fields of a fragment F that has many.
WIDE_FIELDS = NAMES[:251]
WIDE = "fragment F on Query{" + " ".join(WIDE_FIELDS) + "}"

# On these merging spends what lists of sets may cost, so that it compares what follows in pairs: each has F and one field more.
SPENT = "".join(f"{name}:q{{...F {name}}}" for name in NAMES[:25])


def wide_schema(first="ID"):
    """A schema whose query has itself as q, and the fields of F; the type of the first of these is given."""
    return f"type Query{{q:Query {NAMES[0]}:{first} " + " ".join(f"{name}:ID" for name in WIDE_FIELDS[1:]) + "}"


def long_definition(size):
    """Such a schema whose first field is defined with directives of some size."""
    return "directive@d repeatable on FIELD_DEFINITION " + wide_schema("ID" + filled(size, "@d"))


def repeated_in_pairs(size):
    """What `repeat` selects."""
    return "{" + SPENT + "Z:q{...F " + filled(size, "a ") + "}}" + WIDE


def repeat(size):
    """A set repeats one field, and is compared with itself in pairs."""
    return wide_schema(), repeated_in_pairs(size)


def repeat_heavy(size):
    """A set repeats one field, whose definition is as long, and is compared with itself in pairs."""
    return long_definition(size), repeated_in_pairs(size)


def pairs(size):
    """Under one key there are many different sets of two or three fields, compared in pairs."""
    few = (it for count in (2, 3) for it in itertools.combinations(LETTERS, count))
    sets = "".join(itertools.takewhile(fits_in(size), ("q{" + " ".join(it) + "}" for it in few)))
    # New sets add to what lists may cost, so it is spent again by a list for each 60 of them.
    again = (f"{NAMES[300 + i]}:q{{...F {NAMES[i % 50]} {NAMES[50 + i // 50]}}}" for i in range(sets.count("{") // 60 + 2))
    return wide_schema(), "{" + SPENT + "".join(again) + sets + "q{...F}}" + WIDE


def sets_apart(size):
    """Fragments of sets that all differ, under one key, are spread together where what lists may cost is spent; compared in pairs."""

    def texts(count):
        names = iter(NAMES)
        spreads = " ".join(f"...f{i}" for i in range(count))
        own = ["".join(f"q{{{next(names)}:a}}" for _ in range(count + count // 3)) for _ in range(count)]
        spent = "".join(f"spent{i}:q{{...all own{i}:a}}" for i in range(10))
        sets = "".join(f"sets:q{{...f{i}}}" for i in range(count))
        fragments = "".join(f"fragment f{i} on Query{{{body}}}" for i, body in enumerate(own))
        return "type Query{q:Query a:ID}", "{" + spreads + " " + spent + sets + "}fragment all on Query{" + spreads + "}" + fragments

    return counted(texts)(size)


def sets_in_halves(size):
    """As `sets_apart`, but no list that is examined has the fields of all fragments: they are met in two halves."""

    def texts(count):
        names, half = iter(NAMES), count // 2
        spread = lambda first, last: " ".join(f"...f{i}" for i in range(first, last))
        own = ["".join(f"q{{{next(names)}:a}}" for _ in range(count + count // 3)) for _ in range(count)]
        met = f"x:q{{{spread(0, half)}}} y:q{{{spread(half, count)}}} "
        spent = "".join(f"spent{i}:q{{...one own{i}:a}}" for i in range(10))
        sets = "".join(f"sets:q{{...f{i}}}" for i in range(count))
        fragments = "".join(f"fragment f{i} on Query{{{body}}}" for i, body in enumerate(own))
        return "type Query{q:Query a:ID}", "{" + met + spent + sets + "}fragment one on Query{" + spread(0, half) + "}" + fragments

    return counted(texts)(size)


def tower(size):
    """Inline fragments are in each other, and in each some fields, beside one spread that is repeated; compared in pairs."""
    deep = min(480, size // 10)
    level = "...{" + filled(size // 2 // deep - 5, "a ")
    inside = filled(size - deep * (len(level) + 1) - 1, "...G") + level * deep + "b" + "}" * deep
    return wide_schema(), "{" + SPENT + "Z:q{...F " + inside + "}}" + WIDE + "fragment G on Query{c}"


def lists_heavy(size):
    """Many sets have a field of their own and one fragment, which repeats a field whose definition is as long as the document."""
    own = filled(size // 2, lambda i: f"{NAMES[i]}:q{{...F {WIDE_FIELDS[i % 250]} {WIDE_FIELDS[i // 250]}}}")
    head, tail = "{" + own + "}fragment F on Query{", "}"
    return long_definition(size), head + filled(size - len(head) - len(tail), "a ") + tail


def dag(size):
    """Each fragment has a field over each of the later ones."""

    def fragments(count):
        below = ["".join(f"q{{...{NAMES[later]}}}" for later in range(i + 1, count)) for i in range(count)]
        parts = (f"fragment {NAMES[i]} on Query{{a {below[i]}}}" for i in range(count))
        return "type Query{q:Query a:ID}", "{...a}" + "".join(parts)

    return counted(fragments)(size)


# ---- what is judged once for each operation


def apply(size):
    """Operations spread fragments on a union where there is another; the two share their last member alone."""
    half = size // 2
    count = size // 20
    while True:
        kinds = [[f"{union}{i}" for i in range(count)] for union in "AB"]
        schema = "type Query{u:U}type Z{a:ID}" + "".join(f"union {name}={'|'.join(kind)}|Z " for name, kind in zip("UV", kinds))
        schema += "".join(f"type {name}{{a:ID}}" for kind in kinds for name in kind)
        if len(schema) <= size:
            break
        count -= max(1, (len(schema) - size) // 50)
    head = operations(half) + "fragment F on Query{u{"
    return schema, head + filled(size - len(head) - 2, "...on V{...on Z{a}}") + "}}"


def arguments(size, kind="ID"):
    """Definitions of arguments of a type."""
    return filled(size, lambda i: f"{NAMES[i]}:{kind}", " ")


def args(size):
    """Operations share uses of a field that has many arguments, none of which has to be given."""
    schema = "type Query{q:Query a(" + arguments(size - 30) + "):ID}"
    head, tail = operations(size // 2) + "fragment F on Query{q{", "...G}}fragment G on Query{a}"
    return schema, head + filled(size - len(head) - len(tail), "a ") + tail


def locations(size):
    """Operations share uses of a directive that is defined for many locations, the same one over and over."""
    schema = "type Query{q:Query a:ID}directive@d repeatable on " + filled(size - 60, "QUERY|") + "FIELD"
    head, tail = operations(size // 2) + "fragment F on Query{q{...G a", "}}fragment G on Query{a}"
    return schema, head + filled(size - len(head) - len(tail), "@d") + tail


# ---- what is told


def told_args(size):
    """Many uses of a field lack each of its many required arguments."""
    return "type Query{a(" + arguments(size - 30, "ID!") + "):ID}", "{" + filled(size - 2, "a ") + "}"


def told_keys(size):
    """Many objects lack each of the many required fields of their type."""
    schema = "type Query{a(x:[I]):ID}input I{" + arguments(size - 40, "ID!") + "}"
    return schema, "{a(x:[" + filled(size - 9, "{}") + "])}"


def told_ops(size):
    """Operations share uses of a field, which lack each of its many required arguments."""
    schema = "type Query{a(" + arguments(size - 30, "ID!") + "):ID}"
    head = operations(size // 2) + "fragment F on Query{"
    return schema, head + filled(size - len(head) - 1, "a ") + "}"


def told_names(size):
    """Many fields are not there, in a type whose name is as long as the document; so is each line of the answer."""
    name = "N" * (size // 2 - 20)
    return f"schema{{query:{name}}}type {name}{{b:ID}}", "{" + filled(size - 2, "a ") + "}"


def report_fragments(size):
    """Many fragments that are spread are not there, all on one line: graphql-report shows each with its line."""
    return "type Query{a:ID}", "{" + filled(size - 2, lambda i: f"...F{i}") + "}"


def like_names(size):
    """Many fields are not there, in a type of many others: graphql-report looks for a like name of each."""
    return "type Query{" + arguments(size - 12) + "}", "{" + filled(size - 2, lambda i: f"z{i}z", " ") + "}"


def report_long(size):
    """A field is not there, and the one that is has as long a name: graphql-report compares the two."""
    return f"type Query{{{'a' * (size - 20)}:ID}}", f"{{{'b' * (size - 20)}}}"


def warned_operations(size):
    """Many operations reach one fragment with many values of which warnings are told: one for each operation."""
    head, numbers = "type Query{a(b:Float):ID}", filled(size // 2 - 24, lambda i: f"{NAMES[i]}:a(b:1e400)", " ")
    return head, filled(size // 2, lambda i: f"query {NAMES[i]}{{...F}}") + "fragment F on Query{" + numbers + "}"


def warned_arguments(size):
    """Many fields are given an argument of many that are deprecated: graphql-report warns of each."""
    return f"type Query{{a({arguments(size - 36)} zz9:ID@deprecated):ID}}", "{" + filled(size - 2, lambda i: f"{NAMES[i]}:a(zz9:1)", " ") + "}"


def warned_interfaces(size):
    """An object has many interfaces and a field with many arguments that these do not have: graphql-report warns of each."""
    faces = [NAMES[i] for i in range(size // 40)]
    return "".join(f"interface {it}{{q:ID}}" for it in faces) + "type Query implements " + "&".join(faces) + "{q(" + filled(size // 2, lambda i: f"{NAMES[i]}:ID!=1", " ") + "):ID}", "{q}"


def warned_defaults(size):
    """Many input fields have a default of which two warnings are told."""
    return "type Query{a(b:I):ID}input I{" + filled(size - 30, lambda i: f"{NAMES[i]}:[[Int]]=[1.5]", " ") + "}", "{a}"


# ---- names of one hash

# Of the hash of names: its first state, before the length is added, what it multiplies by, and the greatest word.
STARTED, MULTIPLIER, WORD = 0x243F6A8885A308D3, 0x9E3779B97F4A7C15, (1 << 64) - 1
DIGITS = string.ascii_letters + string.digits + "_"


def absorbed():
    """24 bytes of a name after which the hash of names of 32 bytes is at zero, whatever comes next.

    Of 16 bytes at a time the hash multiplies the first eight, after its state, by the other eight: so where the first eight are
    the state, the product is zero. Here the state after one block is found that a name can have for its next eight bytes."""
    pick = random.Random(7)
    while True:
        block = bytes(pick.choices(DIGITS[:52].encode(), k=16))
        first, second = (int.from_bytes(half, "little") for half in (block[:8], block[8:]))
        product = (first ^ (STARTED + 32) & WORD) * (second ^ MULTIPLIER)
        state = ((product & WORD) ^ (product >> 64)).to_bytes(8, "little")
        if all(chr(byte) in DIGITS for byte in state):
            return (block + state).decode()


ABSORBED = absorbed() + "aaaa"


def same_hash(number):
    """Names of 32 bytes that have one hash."""
    return ABSORBED + "".join(DIGITS[number // 63**place % 63] for place in range(4))


def hash_aliases(size):
    """Aliases have one hash."""
    return "type Query{a:ID}", "{" + filled(size - 2, lambda i: same_hash(i) + ":a", " ") + "}"


def hash_lists(size):
    """Many sets have a field of their own and one fragment, whose aliases have one hash."""
    own = filled(size // 2, lambda i: f"{NAMES[i]}:q{{...F {NAMES[i % 2000]}:a}}")
    head = "{" + own + "}fragment F on Query{"
    return "type Query{q:Query a:ID}", head + filled(size - len(head) - 1, lambda i: same_hash(i) + ":a", " ") + "}"


def hash_schema(size):
    """The names of types have one hash."""
    head = "type Query{a:ID}"
    return head + filled(size - len(head), lambda i: "scalar " + same_hash(i), " "), "{a}"


# ---- schemas


def schema_uses(size):
    """A schema uses a directive many times, each time with one of its many arguments."""
    head = "type Query{a:ID}directive@d(" + arguments(size // 2) + ")repeatable on SCALAR scalar S"
    return head + filled(size - len(head), "@d(a:1)"), "{a}"


def missing_fields(size):
    """Many types implement an interface, and lack each of its many fields."""
    head = "type Query{a:ID}interface I{" + arguments(size // 2) + "}"
    return head + filled(size - len(head), lambda i: f"type T{i} implements I{{z:ID}}"), "{a}"


def schema_covariant(size):
    """Many fields have a type that implements many interfaces, where an interface asks for the last of these."""

    def schema(count):
        names = [f"A{i}" for i in range(count)]
        parts = ["type Query{a:ID}", *(f"interface {name}{{z:ID}}" for name in names), f"type X implements {'&'.join(names)}{{z:ID}}"]
        for head, kind in (("interface I", names[-1]), ("type T implements I", "X")):
            parts.append(head + "{" + " ".join(f"{NAMES[i]}:{kind}" for i in range(count)) + "}")
        return "".join(parts), "{a}"

    return counted(schema)(size)


def schema_transitive(size):
    """Many types implement an interface, and none of the many that it implements."""

    def schema(count):
        names = [f"A{i}" for i in range(count)]
        parts = ["type Query{a:ID}", *(f"interface {name}{{z:ID}}" for name in names), f"interface I implements {'&'.join(names)}{{z:ID}}"]
        return "".join([*parts, *(f"type T{i} implements I{{z:ID}}" for i in range(count))]), "{a}"

    return counted(schema)(size)


# ---- others of which much is shared


def told_roots(size):
    """Subscriptions share a fragment of many fields, all of which are told of each."""
    head = filled(size // 2, lambda i: f"subscription {NAMES[i]}{{...F}}") + "fragment F on S{"
    schema = "schema{query:Q subscription:S}type Q{a:ID}type S{a:ID}"
    return schema, head + filled(size - len(head) - 1, "a ") + "}"


def told_variables(size):
    """Operations share uses of a variable that none of them defines; each use is judged under each operation."""
    head = operations(size * 2 // 3) + "fragment F on Query{"
    return "type Query{a(a:ID):ID}", head + filled(size - len(head) - 1, "a(a:$a)") + "}"


def told_in_turn(size):
    """Operations reach uses of a variable that none of them defines, in one order and in the reverse one by turns."""
    count, names = size // 80, NAMES
    uses = "".join(f"fragment {names[i]}1 on Query{{a(a:$a)}}" for i in range(count))
    spreads = [f"...{names[i]}1 " for i in range(count)]
    head = uses + "fragment F on Query{" + "".join(spreads) + "}fragment G on Query{" + "".join(reversed(spreads)) + "}"
    return "type Query{a(a:ID):ID}", head + filled(size - len(head), lambda i: f"query {names[i]}{{...{'FG'[i % 2]}}}")


def shared_variables(size):
    """Operations share uses of a variable that each of them defines."""
    head = filled(size // 2, lambda i: f"query {NAMES[i]}($a:ID){{...F}}") + "fragment F on Query{"
    return "type Query{a(a:ID):ID}", head + filled(size - len(head) - 1, "a(a:$a)") + "}"


def optional_keys(size):
    """Operations share objects that give none of the many optional fields of their type."""
    schema = "type Query{q:Query a(x:[I]):ID}input I{" + arguments(size - 50) + "}"
    head, tail = operations(size // 2) + "fragment F on Query{q{...G a(x:[", "])}}fragment G on Query{b:a}"
    return schema, head + filled(size - len(head) - len(tail), "{}") + tail


def levels_of_fields(size):
    """Fields are in each other, and at each level there are as many others."""

    def texts(count):
        level = " ".join(f"{NAMES[i]}:a" for i in range(count))
        deep = min(count, 120)
        return "type Query{q:Query a:ID}", "{" + f"{level} q{{" * deep + "a" + "}" * deep + "}"

    return counted(texts)(size)


def own_arguments(size):
    """A field has many optional arguments, and its type many interfaces that ask for the field without them."""

    def schema(count):
        names = [f"A{i}" for i in range(count)]
        parts = ["type Query{a:ID}", *(f"interface {name}{{a:ID}}" for name in names), f"type T implements {'&'.join(names)}{{a("]
        return "".join([*parts, " ".join(f"{NAMES[i]}:ID" for i in range(3 * count)), "):ID}"]), "{a}"

    return counted(schema)(size)


def told_labels(size):
    """Subscriptions share deferred fragments, which no condition decides on."""
    schema = "directive@defer(if:Boolean)on FRAGMENT_SPREAD|INLINE_FRAGMENT schema{query:Q subscription:S}type Q{a:ID}type S{q:Q}"
    head = filled(size // 2, lambda i: f"subscription {NAMES[i]}{{q{{...F}}}}") + "fragment F on Q{"
    return schema, head + filled(size - len(head) - 1, "...@defer{a}") + "}"


def directive_arguments(size):
    """Operations share uses of a directive that has many arguments, each use with one of them."""
    head = operations(size // 2) + "fragment F on Query{q{...G a"
    tail = "}}fragment G on Query{a}"
    return "directive@d(" + arguments(size - 100) + ")repeatable on FIELD type Query{q:Query a:ID}", head + filled(size - len(head) - len(tail), "@d(a:1)") + tail


def objects_and_sets(size):
    """Objects of an interface each have a set of their own, and the interface has as many."""

    def texts(count):
        schema = "type Query{i:I}interface I{i:I a:ID}" + "".join(f"type T{i} implements I{{i:I a:ID}}" for i in range(count))
        return schema, "{i{" + "".join(f"i{{{NAMES[i]}:a}}" for i in range(count)) + "".join(f"...on T{i}{{i{{{NAMES[i]}0:a}}}}" for i in range(count)) + "}}"

    return counted(texts)(size)


def tower_of_sets(size):
    """Sets of one key are in each other, and are compared in pairs at each level."""
    deep = min(100, size // 20)
    level = "q{" + filled(size // deep - 4, lambda i: f"q{{{NAMES[i]}}}")
    return wide_schema(), "{" + SPENT + "Z:q{...F " + level * deep + "}" * deep + "}}" + WIDE


# ---- one construct each

Q = "type Query { a: Int b: Int q: Query f(x: Int): Int l(x: [Int]): Int }"

M = "type Query { q: Query a: Int b: String }"


def chain(n, body, last):
    """Fragments F0 to Fn-1, each with a body in which # is a spread of the next; the last one has other selections."""
    inner = (f"fragment F{i} on Query {{ {body.replace('#', f'...F{i + 1}')} }}" for i in range(n - 1))
    return " ".join([*inner, f"fragment F{n - 1} on Query {{ {last} }}"])


def shared(n):
    """A fragment of n fields."""
    return " fragment F on Query { " + many(n, "a#: a") + " }"


def levels(members, chosen, deep):
    """Fragments at so many levels, each of which spreads two of the next: those of one level are spread in different orders; and
    where fewer are chosen than there are members, in different sets, and all of them by another operation."""
    order = random.Random(1)
    parts = ["query one { " + many(chosen, "...A0_#") + " }"]
    for level in range(deep):
        x, y = list(range(members)), list(range(members))
        order.shuffle(x)
        order.shuffle(y)
        next_level = f"...A{level + 1}_"
        parts += (f"fragment A{level}_{i} on Query {{ x: q {{ {next_level}{x[i]} }} y: q {{ {next_level}{y[i]} }} }}" for i in range(members))
    parts += (f"fragment A{deep}_{i} on Query {{ a{i}: a }}" for i in range(members))
    if chosen < members:
        parts.append("query all { " + " ".join(f"...A{level}_{i}" for level in range(deep + 1) for i in range(members)) + " }")
    return " ".join(parts)


def objects(n):
    """A schema with an interface that n objects have."""
    return "type Query { i: I } interface I { i: I a: Int } " + many(n, "type T# implements I { i: I a: Int }")


def parents(n):
    """Fragments on that interface, of n sets below it and of one below each object."""
    return "fragment A on I { " + many(n, "i { a#: a }") + " } fragment B on I { " + many(n, "... on T# { i { b#: a } }") + " }"


def words(n):
    """n chains of fields that have nearly all words of two keys, and n that have one word each."""
    pick = random.Random(2)
    long = max(1, math.ceil(1.5 * math.log2(n + 1)))
    parts = ["{ " + many(n, "...A#_0 ...B#_0") + " }"]
    for i in range(n):
        for k in range(long):
            other = "" if pick.random() < 1 / long else f"k1: q {{ ...A{i}_{k + 1} }} "
            parts.append(f"fragment A{i}_{k} on Query {{ k0: q {{ ...A{i}_{k + 1} }} {other}}}")
            parts.append(f"fragment B{i}_{k} on Query {{ k{int(pick.random() < .5)}: q {{ ...B{i}_{k + 1} }} }}")
        parts.append(f"fragment A{i}_{long} on Query {{ z: a }} fragment B{i}_{long} on Query {{ z: a }}")
    return " ".join(parts)


# Of each construct its name, and what makes the schema and the document of a number of it.
CONSTRUCTS = [
    ("equal fields of one set", lambda n: (Q, "{ " + many(n, "a") + " }")),
    ("fields of one set under other keys", lambda n: (Q, "{ " + many(n, "k#: a") + " }")),
    ("fields of one key that select other fields", lambda n: (Q, "{ " + many(n, "q { k#: a }") + " }")),
    ("selections", lambda n: (Q, "{ " + many(n, "... { a }") + " }")),
    ("selections below fields", lambda n: (Q, "{ " + many(n, "k#: q { a }") + " }")),
    ("fragments that spread the next", lambda n: (Q, "{ ...F0 } " + chain(n, "#", "a"))),
    ("fragments at many levels", lambda n: (Q, "{ ...F0 } " + chain(n, "q { # } q { # }", "a"))),
    ("fragments at many levels, three keys", lambda n: (Q, "{ ...F0 } " + chain(n, "q { # } r: q { # } s: q { # a }", "a"))),
    ("fragments side by side", lambda n: (Q, "{ " + many(n, "...F#") + " } " + many(n, "fragment F# on Query { a }"))),
    ("operations that reach one fragment", lambda n: (Q, many(n, "query Q# { ...F }") + " fragment F on Query { a }")),
    ("operations, and as many fields in a fragment", lambda n: (Q, many(n, "query Q# { ...F }") + " fragment F on Query { " + many(n, "k#: a") + " }")),
    ("operations, and as many fields below one", lambda n: (Q, many(n, "query Q# { ...F }") + " fragment F on Query { q { " + many(n, "k#: a") + " } }")),
    ("operations, and as many fragments in one", lambda n: (Q, many(n, "query Q# { ...F }") + " fragment F on Query { " + many(n, "...F#") + " } " + many(n, "fragment F# on Query { k#: a }"))),
    ("fields of one key, and as many in a fragment of each", lambda n: (Q, "{ " + many(n, "q { k#: a ...F }") + " } fragment F on Query { " + many(n, "l#: a") + " }")),
    ("variables, each used once", lambda n: (Q, "query(" + many(n, "$v#: Int") + ") { " + many(n, "k#: f(x: $v#)") + " }")),
    ("variables, each used in one list", lambda n: (Q, "query(" + many(n, "$v#: Int") + ") { l(x: [" + many(n, "$v#") + "]) }")),
    ("uses of one variable", lambda n: (Q, "query($v: Int) { " + many(n, "k#: f(x: $v)") + " }")),
    ("arguments of one field", lambda n: ("type Query { f(" + many(n, "x#: Int") + "): Int }", "{ f(" + many(n, "x#: 1") + ") }")),
    ("arguments of two fields of one key", lambda n: ("type Query { f(" + many(n, "x#: Int") + "): Int }", "{ f(" + many(n, "x#: 1") + ") f(" + many(n, "x#: 1") + ") @skip(if: true) }")),
    ("items of a list", lambda n: (Q, "{ l(x: [" + many(n, "1") + "]) }")),
    ("keys of an object", lambda n: ("type Query { f(x: I): Int } input I { " + many(n, "k#: Int") + " }", "{ f(x: {" + many(n, "k#: 1") + "}) }")),
    ("directives of a field", lambda n: ("directive @d repeatable on FIELD " + Q, "{ a " + many(n, "@d") + " }")),
    ("objects of an interface, each with a fragment", lambda n: ("type Query { p: P } interface P { a: Int } " + many(n, "type T# implements P { a: Int }"), "{ p { " + many(n, "... on T# { a }") + " } }")),
    ("members of a union, each with a fragment on it", lambda n: ("type Query { u: U } union U = " + many(n, "T#", " | ") + " " + many(n, "type T# { a: Int }"), "{ u { " + many(n, "... on U { ... on T# { k#: a } }") + " } }")),
    ("merging: fragments in different orders, levels", lambda n: (M, levels(8, 8, n))),
    ("merging: fragments in different orders, members", lambda n: (M, levels(n, n, 16))),
    ("merging: different sets of fragments, levels", lambda n: (M, levels(16, 8, n))),
    ("merging: groups that select one fragment", lambda n: (M, "{ " + many(n, "x#: q { ...F }") + " }" + shared(n))),
    ("merging: groups that select one fragment and a field", lambda n: (M, "{ " + many(n, "x#: q { y#: a ...F }") + " }" + shared(n))),
    ("merging: one group that selects one fragment", lambda n: (M, "{ " + many(n, "q { ...F b#: a }") + " }" + shared(n))),
    ("merging: groups that select such a group", lambda n: (M, "{ " + many(n, "x#: q { ...H q { ...F c#: a } }") + " } fragment H on Query { " + many(n, "q { ...F b#: a }") + " }" + shared(n))),
    ("merging: operations that select it and a field", lambda n: (M, many(n, "query Z# { y#: a ...F }") + shared(n))),
    ("merging: fragments that select other fields of one", lambda n: (M, "{ " + many(n, "...F#") + " } " + many(n, "fragment F# on Query { q { x#: a } }"))),
    ("merging: objects of an interface", lambda n: (objects(n), "{ i { " + many(n, "... on T# { a }") + " } }")),
    ("merging: objects, and as many fields of the interface", lambda n: (objects(n), "{ i { i { " + many(n, "a#: a") + " } " + many(n, "... on T# { i { b#: a } }") + " } }")),
    ("merging: objects, and as many sets of the interface", lambda n: (objects(n), "{ i { " + many(n, "i { a#: a }") + " " + many(n, "... on T# { i { b#: a } }") + " } }")),
    ("merging: keys, over objects and sets of the interface", lambda n: (objects(n), "{ i { " + many(n, "x#: i { ...A ...B i { c#: a } }") + " } } " + parents(n))),
    ("merging: objects and sets of the interface, at two levels", lambda n: (objects(n), "{ i { " + many(n, "i { ...A ...B i { c#: a } }") + " " + many(n, "... on T# { i { ...A d#: a } }") + " } } " + parents(n))),
    ("merging: words", lambda n: (M, words(n))),
    ("faults", lambda n: (Q, "{ " + many(n, "k#: f(x: $v#)") + " }")),
]


class Family(NamedTuple):
    """A family: its name, its sentence, what makes its texts of a size, the full size, n, which program judges it, whether that
    tells faults, and by what factor instructions may grow from n to 2 n; none where that is only measured."""

    name: str
    sentence: str
    make: Callable
    full: int
    small: int
    program: str
    told: bool
    bound: Optional[float]


def family(make, small=None, full=20_000, program="check", told=False, bound=2.3, name=None):
    """The family of a function, half of whose full size is n where nothing else is said."""
    sentence = (make.__doc__ or "").split("\n")[0].rstrip(".")
    return Family(name or make.__name__, sentence, make, full, small or full // 2, program, told, bound)


def construct(name, make):
    """The family of a construct. Nesting bounds those of many levels."""
    full = 5_000 if "at many levels" in name else 20_000
    return family(counted(make), full=full, told=name == "faults", bound=None, name=name)


SCHEMA = 200_000

FAMILIES = [
    family(repeat, 200, 18_800),
    family(repeat_heavy, 80, 18_500),
    family(pairs, 2_000, 18_300, bound=4.3),
    family(sets_apart, 1_000, bound=4.3),
    family(sets_in_halves, 3_600, bound=4.3),
    family(tower, 640, 18_800),
    family(lists_heavy, 300),
    family(dag, 4_000),
    family(apply, 2_000),
    family(args, 500),
    family(locations, 2_500),
    family(told_args, 2_000, told=True),
    family(told_keys, 400, told=True),
    family(told_ops, 2_000, told=True),
    family(told_names, 4_000, told=True, bound=4.3),
    family(hash_aliases, 8_000, 100_000),
    family(hash_lists, 3_500),
    family(hash_schema, 6_000, SCHEMA),
    family(schema_uses, 6_000, SCHEMA),
    family(missing_fields, 8_000, SCHEMA, told=True),
    family(schema_covariant, 20_000, SCHEMA),
    family(schema_transitive, 4_000, SCHEMA, told=True),
    family(report_fragments, 1_000, program="report", told=True),
    family(like_names, 1_000, program="report", told=True),
    family(report_long, 2_000, program="report", told=True),
    family(warned_operations, 5_000, program="warn", bound=4.3),
    family(warned_arguments, 2_000, program="warn"),
    family(warned_interfaces, 2_000, program="warn", bound=4.3),
    family(warned_defaults, 2_000, program="warn"),
    family(tower_of_sets, 300, 18_800),
    family(objects_and_sets, 2_000, bound=4.3),
    family(levels_of_fields, 4_000),
    family(directive_arguments, 500),
    family(optional_keys, 700),
    family(shared_variables, 4_000),
    family(own_arguments, 8_000, SCHEMA),
    family(told_roots, 3_000, told=True),
    family(told_variables, 800, told=True, bound=4.3),
    family(told_in_turn, 1_600, told=True, bound=4.3),
    family(told_labels, 2_500, told=True),
]
