"""Values: those that a type takes, and any at all."""
from .parts import Part, inner, item_of, nullable

STRINGS = ['""', '"a"', '"a b # c"', r'"\" \\ \/ \b \f \n \r \t"', r'"\u00e9\u0041"', '"é ü"', '"\t"', '""""""', '"""a block"""',
           '"""\n  two\n    lines\n"""', r'"""with \""" in it"""', '"""a \\n b"""', '"""ends in a quote \\""""""']
ODD_STRINGS = ['"😀"', r'"\uD83D\uDE00"', r'"\uD83D"', '"\x07"', '"""\x07"""', r'"\u{1F600}"']
INTS = ["0", "-0", "1", "7", "-12", "2147483647", "-2147483648"]
FLOATS = ["0.0", "-1.5", "1e3", "6.02E+23", "1.5e-7", "-0.0e0"]
ODD_FLOATS = ["1e400", "-1e999"]
BIG_INTS = ["2147483648", "-2147483649", "99999999999999999999"]


class Values:
    """What makes values over a schema, at random. With `is_plain` it makes no null and no block string, which older editions have not.
    `variable` makes a variable of a type, None where none is wanted."""

    def __init__(self, schema, random):
        self.schema, self.random, self.is_plain = schema, random, schema.is_plain

    def string(self):
        """A string."""
        strings = [it for it in STRINGS if not self.is_plain or not it.startswith('"""') and it != '""""""']
        if not self.is_plain and self.random.random() < 0.004:
            return Part("odd string", self.random.choice(ODD_STRINGS))
        found = self.random.choice(strings)
        return Part("block string" if found.startswith('"""') else "string", found)

    def scalar(self, name):
        """A value of a built-in scalar."""
        random = self.random
        if name == "Int":
            return Part("int", random.choice(INTS))
        if name == "Float":
            if random.random() < 0.01:
                return Part("float", random.choice(ODD_FLOATS))
            return random.choice([Part("int", random.choice(INTS + BIG_INTS)), Part("float", random.choice(FLOATS))])
        if name == "Boolean":
            return Part("boolean", random.choice(["true", "false"]))
        if name == "ID" and random.random() < 0.5:
            return Part("int", random.choice(INTS + BIG_INTS))
        return self.string()

    def any(self, depth=0):
        """A literal of any kind."""
        kinds = ["int", "float", "string", "boolean", "enum"] + (["list", "object"] if depth < 2 else []) + ([] if self.is_plain else ["null"])
        kind = self.random.choice(kinds)
        if kind == "list":
            return Part("list", "[", *(self.any(depth + 1) for _ in range(self.random.randrange(3))), "]")
        if kind == "object":
            names = self.random.sample(["a", "b", "c", "on", "type"], self.random.randrange(3))
            return Part("object", "{", *(Part("object field", it, ":", self.any(depth + 1)) for it in names), "}")
        if kind == "null":
            return Part("null", "null")
        if kind == "enum":
            return Part("enum value", self.random.choice(["RED", "BLUE", "on", "fragment", "zz"]))
        return self.scalar({"int": "Int", "float": "Float", "string": "String", "boolean": "Boolean"}[kind])

    def of(self, wanted, depth=0, variable=None):
        """A value that a type takes; `variable` is what makes a variable of a type, if one may be there."""
        if variable and self.random.random() < 0.25:
            return variable(wanted)
        if not wanted.endswith("!") and not self.is_plain and self.random.random() < 0.08:
            return Part("null", "null")
        item = item_of(wanted)
        if item is None:
            return self.named(inner(wanted), depth, variable)
        # a value for a list of one; for a list of lists one that is no list, but now and then
        if self.random.random() < 0.2 and (item_of(item) is None or self.random.random() < 0.02):
            return self.of(nullable(item) + "!", depth, None)
        count = self.random.choice([0, 1, 1, 2, 3]) if depth < 3 else 0
        return Part("list", "[", *(self.of(item, depth + 1, variable) for _ in range(count)), "]")

    def named(self, name, depth, variable):
        """A value of a named type that is not null."""
        if name in self.schema.enums:
            return Part("enum value", self.random.choice(self.schema.enums[name]))
        if name in self.schema.inputs:
            return self.object(name, depth, variable)
        if name in self.schema.scalars:
            return self.custom()
        return self.scalar(name)

    def custom(self):
        """A value of a custom scalar: most are no list with null in it, which the checker judges by the scalar's mark."""
        while True:
            found = self.any(1)
            if found.kind != "null" and ("null" not in found.tokens() or self.random.random() < 0.1):
                return found

    def object(self, name, depth, variable):
        """A value of an input object: its required fields, and some of the others in any order."""
        fields = [it for it in self.schema.inputs[name] if it.is_required() or depth < 3 and self.random.random() < 0.4]
        self.random.shuffle(fields)
        return Part("object", "{", *(Part("object field", it.name, ":", self.of(it.type, depth + 1, variable)) for it in fields), "}")
