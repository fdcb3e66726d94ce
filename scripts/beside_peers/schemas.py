"""Schemas at random, of every construct of the grammar, each valid unless an oddity is in it that the checker takes otherwise."""
from .parts import Part, nullable, typed
from .values import Values

BUILT_IN = ["Int", "Float", "String", "Boolean", "ID"]
EXECUTABLE = ["QUERY", "MUTATION", "SUBSCRIPTION", "FIELD", "FRAGMENT_DEFINITION", "FRAGMENT_SPREAD", "INLINE_FRAGMENT", "VARIABLE_DEFINITION"]
OF_TYPES = ["SCHEMA", "SCALAR", "OBJECT", "FIELD_DEFINITION", "ARGUMENT_DEFINITION", "INTERFACE", "UNION", "ENUM", "ENUM_VALUE",
            "INPUT_OBJECT", "INPUT_FIELD_DEFINITION"]
ROOTS = ["query", "mutation", "subscription"]
WORDS = {"scalar": "SCALAR", "type": "OBJECT", "interface": "INTERFACE", "union": "UNION", "enum": "ENUM", "input": "INPUT_OBJECT"}


class Input:
    """An argument's definition or an input field: its name and type, and its default as a part, or None."""

    def __init__(self, name, type, default=None):
        self.name, self.type, self.default = name, type, default

    def is_required(self):
        return self.type.endswith("!") and self.default is None


class Field:
    """A field: its name, type and arguments."""

    def __init__(self, name, type, args=()):
        self.name, self.type, self.args = name, type, list(args)


class Directive:
    """A directive's definition."""

    def __init__(self, name, args, locations, is_repeatable):
        self.name, self.args, self.locations, self.is_repeatable = name, args, locations, is_repeatable


def introspection():
    """The types that introspection adds, as far as documents select from them."""
    name, deprecated = Field("name", "String!"), Input("includeDeprecated", "Boolean", Part("boolean", "false"))
    kind = Field("kind", "__TypeKind!")
    return {
        "__Schema": [Field("types", "[__Type!]!"), Field("queryType", "__Type!"), Field("directives", "[__Directive!]!")],
        "__Type": [Field("name", "String"), kind, Field("fields", "[__Field!]", [deprecated]), Field("ofType", "__Type"),
                   Field("possibleTypes", "[__Type!]"), Field("enumValues", "[__EnumValue!]", [deprecated]), Field("inputFields", "[__InputValue!]")],
        "__Field": [name, Field("args", "[__InputValue!]!"), Field("type", "__Type!"), Field("isDeprecated", "Boolean!")],
        "__InputValue": [name, Field("type", "__Type!"), Field("defaultValue", "String")],
        "__EnumValue": [name, Field("deprecationReason", "String")],
        "__Directive": [name, Field("args", "[__InputValue!]!"), Field("locations", "[__DirectiveLocation!]!")],
    }


class Schema:
    """A schema at random. With `is_plain` it has nothing that graphql-core, which is of an older edition, cannot read."""

    def __init__(self, random, is_plain):
        self.random, self.is_plain = random, is_plain
        self.scalars = [f"Mark{i}" for i in range(random.randrange(3))]
        self.enums = {f"Pick{i}": random.sample(["RED", "GREEN", "BLUE", "on", "type", "query"], random.randint(1, 4)) for i in range(random.randint(1, 2))}
        self.inputs, self.interfaces, self.objects, self.unions, self.directives = {}, {}, {}, {}, {}
        self.implements = {}
        self.values = Values(self, random)
        for i in range(random.randint(1, 2)):
            self.add_input(f"Form{i}")
        self.add_outputs()
        for i in range(random.randint(1, 3)):
            self.add_directive(f"d{i}")

    # ---- what it has

    def wrapped(self, name, lists=2):
        """A type around a name: some lists and marks."""
        random = self.random
        made = name
        while lists and random.random() < 0.3:
            made, lists = f"[{made}{random.choice(['', '', '!'])}]", lists - 1
        return made + random.choice(["", "", "!"])

    def input_type(self):
        """A type of inputs."""
        names = BUILT_IN * 2 + self.scalars * 2 + list(self.enums) * 2 + list(self.inputs) * 2
        return self.wrapped(self.random.choice(names))

    def input(self, name, type=None):
        """An input value of a name, with a default or without."""
        type = type or self.input_type()
        default = self.values.of(type, 1) if self.random.random() < 0.3 else None
        return Input(name, type, default)

    def arguments(self, most=3):
        """Definitions of arguments."""
        names = self.random.sample(["a0", "a1", "a2", "if", "on"], self.random.choice([0, 0, 1, 1, 2, most]))
        return [self.input(it) for it in names]

    def add_input(self, name):
        """An input object, which refers to itself and to earlier ones."""
        fields = [self.input(f"i{i}") for i in range(self.random.randint(1, 3))]
        if self.random.random() < 0.3:
            fields.append(Input("self", self.random.choice([name, f"[{name}!]!", f"[{name}]"]), None))
        self.inputs[name] = fields

    def add_directive(self, name):
        """A directive, for some locations of both kinds."""
        random = self.random
        locations = random.sample(EXECUTABLE, random.randint(1, 5)) + random.sample(OF_TYPES, random.randint(0, 5))
        if self.is_plain:
            locations = [it for it in locations if it != "VARIABLE_DEFINITION"] or ["FIELD"]
        args = self.arguments(2)
        if set(locations) & {"SCALAR", "ENUM", "ENUM_VALUE", "INPUT_OBJECT", "INPUT_FIELD_DEFINITION", "ARGUMENT_DEFINITION"}:
            # such a directive may be used on the type of an argument, so that types of its own could lead back to it
            args = [self.input(it.name, self.wrapped(random.choice(BUILT_IN))) for it in args]
        self.directives[name] = Directive(name, args, locations, not self.is_plain and random.random() < 0.3)

    def add_outputs(self):
        """Interfaces, objects and unions. Fields that interfaces share are in a table by name, so that all agree on their types."""
        random = self.random
        faces, objects = [f"Face{i}" for i in range(random.randint(0, 3))], [f"Thing{i}" for i in range(random.randint(1, 2))]
        roots = ["Query"] + random.sample(["Mutation", "Subscription"], random.randint(0, 2))
        unions = [f"Either{i}" for i in range(random.randint(0, 2))]
        self.names = BUILT_IN + self.scalars + list(self.enums) + faces + objects * 2 + unions
        shared = {f"s{i}": (self.wrapped(random.choice(self.names)), self.arguments(1)) for i in range(6)}
        for face in faces:
            earlier = [] if self.is_plain or random.random() < 0.5 else random.sample(sorted(self.interfaces), min(len(self.interfaces), 2))
            self.add_composite(face, self.interfaces, earlier, shared)
        for name in objects + roots:
            few = 1 if self.is_plain else random.randint(0, 3)
            self.add_composite(name, self.objects, random.sample(faces, min(few, len(faces))) if random.random() < 0.7 else [], shared)
        for name in unions:
            self.unions[name] = random.sample(objects, random.randint(1, len(objects)))
        self.roots = {it: it.capitalize() for it in ROOTS if it.capitalize() in roots}

    def add_composite(self, name, kind, wanted, shared):
        """An object or interface with all interfaces that those it is to implement have."""
        random = self.random
        all_of = list(dict.fromkeys(it for face in wanted for it in [face, *self.implements[face]]))
        self.implements[name] = all_of
        needed = {field.name: field for face in all_of for field in self.interfaces[face]}
        fields = [self.implementing(field, kind is self.objects) for field in needed.values()]
        if kind is self.interfaces:
            own = [it for it in random.sample(sorted(shared), random.randint(1, 3)) if it not in needed]
            fields += [Field(it, *shared[it]) for it in own]
        count = random.randint(0 if fields else 1, 3)
        own = name.lower() if kind is self.interfaces else "f"
        fields += [Field(f"{own}{i}", self.wrapped(random.choice(self.names)), self.arguments()) for i in range(count)]
        kind[name] = fields

    def implementing(self, field, may_refine):
        """A field as an implementer has it; an object may have it with a mark more, and with another optional argument."""
        random = self.random
        if not may_refine:
            return field
        type = nullable(field.type) + "!" if random.random() < 0.3 else field.type
        args = list(field.args)
        if random.random() < 0.2 and all(it.name != "more" for it in args):
            args.append(Input("more", random.choice(["Int", "[String!]"]), None))
        return Field(field.name, type, args)

    def possible(self, name):
        """The objects that a composite type can be."""
        if name in self.unions:
            return set(self.unions[name])
        if name in self.interfaces:
            return {it for it in self.objects if name in self.implements[it]}
        return {name}

    def fields(self, name):
        """The fields of an object or interface, by introspection too."""
        return self.objects.get(name) or self.interfaces.get(name) or introspection().get(name) or []

    def is_composite(self, name):
        return name in self.objects or name in self.interfaces or name in self.unions or name in introspection()

    # ---- how it is written

    def described(self):
        """A description, or none."""
        if self.is_plain or self.random.random() < 0.8:
            return None
        return Part("description", self.random.choice(['"what it is"', '"""\n  What it is,\n    at length.\n"""', '""""""', '""']))

    def used(self, location, variable=None, after=""):
        """Directives that may be used at a location, with arguments; of those that are named after another."""
        random, found = self.random, []
        fitting = [it for it in self.directives.values() if location in it.locations and it.name > after]
        if fitting and random.random() < 0.25:
            chosen = random.choice(fitting)
            for _ in range(2 if chosen.is_repeatable and random.random() < 0.5 else 1):
                found.append(self.use(chosen, variable))
        if location in ("FIELD_DEFINITION", "ENUM_VALUE") and random.random() < 0.1:
            reason = [Part("arguments", "(", Part("argument", "reason", ":", self.values.string()), ")")] if random.random() < 0.5 else []
            found.append(Part("directive", "@", "deprecated", *reason))
        return found

    def use(self, directive, variable):
        """A use of a directive."""
        return Part("directive", "@", directive.name, self.given(directive.args, variable))

    def given(self, args, variable):
        """Arguments for these definitions: the required ones, and some of the others."""
        given = [it for it in args if it.is_required() or self.random.random() < 0.5]
        self.random.shuffle(given)
        if not given:
            return None
        return Part("arguments", "(", *(Part("argument", it.name, ":", self.values.of(it.type, 0, variable)) for it in given), ")")

    def written_input(self, it, kind, location, after=""):
        """An argument's definition or an input field."""
        default = Part("default", "=", it.default.copy()) if it.default else None
        return Part(kind, self.described(), it.name, ":", typed(it.type), default, *self.used(location, None, after))

    def written_arguments(self, args, after=""):
        """Definitions of arguments; those of a directive use only directives that are named after it."""
        if not args:
            return None
        return Part("argument definitions", "(", *(self.written_input(it, "argument definition", "ARGUMENT_DEFINITION", after) for it in args), ")")

    def written_field(self, field):
        """A field's definition."""
        return Part("field definition", self.described(), field.name, self.written_arguments(field.args), ":", typed(field.type), *self.used("FIELD_DEFINITION"))

    def pieces(self, word, name, members, opening, faces=()):
        """A type's definition, or a definition and an extension that has some of its members and interfaces. `opening` is what is
        written around members."""
        random = self.random
        cut = random.randint(0, len(members)) if not self.is_plain and random.random() < 0.2 and len(members) > 1 else len(members)
        cut_faces = random.randint(0, len(faces)) if cut < len(members) else len(faces)
        first = [self.implementing_list(faces[:cut_faces]), *self.used(WORDS[word]), opening(members[:cut]) if cut else None]
        made = [Part(f"{word} definition", self.described(), word, name, *first)]
        if cut < len(members):
            rest = [self.implementing_list(faces[cut_faces:]), opening(members[cut:])]
            made.append(Part(f"{word} extension", "extend", word, name, *rest))
        return made

    def implementing_list(self, faces):
        """`implements` and names, or nothing."""
        if not faces:
            return None
        first = ["&"] if not self.is_plain and self.random.random() < 0.1 else []
        return Part("implements", "implements", *first, *joined(faces, "&"))

    def piped(self, members):
        """The members of a union."""
        first = ["|"] if not self.is_plain and self.random.random() < 0.2 else []
        return Part("union members", "=", *first, *joined(members, "|"))

    def scalar(self, name):
        """The definition of a scalar."""
        uses = self.used("SCALAR")
        if not self.is_plain and self.random.random() < 0.3:
            uses.append(Part("directive", "@", "specifiedBy", Part("arguments", "(", Part("argument", "url", ":", self.values.string()), ")")))
        return Part("scalar definition", self.described(), "scalar", name, *uses)

    def types(self):
        """The definitions of all types."""
        def within(members):
            return Part("members", "{", *members, "}")

        yield from map(self.scalar, self.scalars)
        for name, values in self.enums.items():
            yield from self.pieces("enum", name, [Part("enum value definition", self.described(), it, *self.used("ENUM_VALUE")) for it in values], within)
        for name, fields in self.inputs.items():
            yield from self.pieces("input", name, [self.written_input(it, "input field", "INPUT_FIELD_DEFINITION") for it in fields], within)
        for word, kind in (("interface", self.interfaces), ("type", self.objects)):
            for name, fields in kind.items():
                yield from self.pieces(word, name, [self.written_field(it) for it in fields], within, self.implements[name])
        for name, members in self.unions.items():
            yield from self.pieces("union", name, [Part("union member", it) for it in members], self.piped)

    def written_directive(self, it):
        """A directive's definition."""
        first = ["|"] if not self.is_plain and self.random.random() < 0.2 else []
        repeatable = ["repeatable"] if it.is_repeatable else []
        locations = Part("locations", *joined(it.locations, "|"))
        return Part("directive definition", self.described(), "directive", "@", it.name, self.written_arguments(it.args, it.name), *repeatable, "on", *first, locations)

    def written_schema(self):
        """The schema's definition, where it is written, and perhaps an extension of it."""
        if not self.is_plain and self.random.random() < 0.5:
            return []
        roots = [Part("root", it, ":", name) for it, name in self.roots.items()]
        cut = self.random.randint(1, len(roots)) if not self.is_plain and self.random.random() < 0.3 else len(roots)
        made = [Part("schema definition", self.described(), "schema", *self.used("SCHEMA"), Part("members", "{", *roots[:cut], "}"))]
        if cut < len(roots):
            made.append(Part("schema extension", "extend", "schema", Part("members", "{", *roots[cut:], "}")))
        return made

    def oddities(self):
        """Now and then, a definition that is valid, and that some take otherwise."""
        if self.is_plain or self.random.random() > 0.04:
            return []
        texts = ["extend type __Schema { odd : Int }", "extend scalar Int @ d0", "directive @ skip ( unless : Int ) on OBJECT",
                 "type Odd { a ( x : Int , x : Int ) : Int }", "type Odd { a ( x : Int! @ deprecated ) : Int }",
                 "input Odd { a : Int = \"wrong\" }", "type Odd { a ( x : Int = RED ) : Int }", "directive @ defer on INLINE_FRAGMENT | FRAGMENT_SPREAD",
                 "directive @ odd @ even on FIELD directive @ even on DIRECTIVE_DEFINITION", "scalar ID", "extend schema @ d0", "type Odd implements OddFace { a ( x : Int! = 1 ) : Int } interface OddFace { a : Int }"]
        return [Part("oddity", *self.random.choice(texts).split(" "))]

    def written(self):
        """All of it, in any order."""
        definitions = [*self.types(), *map(self.written_directive, self.directives.values()), *self.written_schema(), *self.oddities()]
        self.random.shuffle(definitions)
        return Part("schema text", *definitions)


def joined(names, mark):
    """Names with a mark between them."""
    found = []
    for name in names:
        found += [mark, name] if found else [name]
    return found

