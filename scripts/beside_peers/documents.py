"""Documents at random over a schema, each valid unless an oddity is in it that the checker takes otherwise."""
from .parts import Part, inner, nullable, typed
from .schemas import Field, Input


class Body:
    """What an operation or a fragment has: its part, the variables and the fragments that it uses, and what it applies to."""

    def __init__(self, head, on):
        self.head, self.on, self.variables, self.spreads, self.set = head, on, set(), set(), None


class Document:
    """A document at random: its fragments first, the last of them first, so that they spread only later ones; then operations."""

    def __init__(self, schema, random):
        self.schema, self.random, self.values = schema, random, schema.values
        self.variables, self.keys, self.fragments, self.operations, self.body = {}, {}, {}, [], None
        conditions = list(schema.objects) + list(schema.interfaces) + list(schema.unions)
        for i in reversed(range(random.choice([0, 0, 1, 2, 3]))):
            self.add_fragment(f"F{i}", random.choice(conditions))
        for i in range(random.choice([1, 1, 1, 2, 3])):
            self.add_operation(random.choice(list(schema.roots) + ["query"]), f"O{i}")
        if len(self.operations) == 1 and random.random() < 0.5:
            self.operations[0].name = None

    # ---- variables

    def variable(self, wanted):
        """A variable that fits a type: one that is there, or another."""
        fitting = [name for name, (type, _) in self.variables.items() if type == wanted]
        if fitting and self.random.random() < 0.5:
            name = self.random.choice(fitting)
        else:
            name, random = f"v{len(self.variables)}", self.random
            type, default = wanted, None
            if wanted.endswith("!") and random.random() < 0.3:
                type = nullable(wanted)
                default = self.values.of(wanted, 1)
            elif not wanted.endswith("!") and random.random() < 0.3:
                type = wanted + "!"
            if default is None and random.random() < 0.3:
                default = self.values.of(type, 1)
            self.variables[name] = type, default
        self.body.variables.add(name)
        return Part("variable", "$", name)

    def definitions(self, names):
        """The definitions of variables."""
        if not names:
            return None
        found = []
        for name in sorted(names):
            type, default = self.variables[name]
            uses = [] if self.schema.is_plain else self.schema.used("VARIABLE_DEFINITION")
            found.append(Part("variable definition", "$", name, ":", typed(type), Part("default", "=", default.copy()) if default else None, *uses))
        return Part("variable definitions", "(", *found, ")")

    # ---- selections

    def directives(self, location):
        """Directives at a location, `@skip` and `@include` among them."""
        found = self.schema.used(location, self.variable)
        if location in ("FIELD", "FRAGMENT_SPREAD", "INLINE_FRAGMENT"):
            for name in ("skip", "include"):
                if self.random.random() < 0.06:
                    condition = self.values.of("Boolean!", 0, self.variable)
                    found.append(Part("directive", "@", name, Part("arguments", "(", Part("argument", "if", ":", condition), ")")))
        return found

    def response(self, field, args):
        """An alias, or None, so that all fields under one response name are the same."""
        same = (field.name, args.text() if args else "", field.type)
        names = [field.name] if self.random.random() < 0.8 else []
        for name in names + [f"k{i}" for i in range(4)] + [f"k{len(self.keys) + 4}"]:
            if self.keys.setdefault(name, same) == same:
                return None if name == field.name else name
        return f"k{len(self.keys) + 9}"

    def field(self, field, depth, are_directives=True):
        """A selection of a field."""
        args = self.schema.given(field.args, self.variable)
        alias = self.response(field, args)
        name, below = inner(field.type), None
        if self.schema.is_composite(name):
            below = self.selections(name, depth + 1)
        head = [Part("alias", alias, ":")] if alias else []
        return Part("field", *head, field.name, args, *(self.directives("FIELD") if are_directives else []), below)

    def meets(self, name, other):
        """Whether something can be of both types."""
        return name == other or bool(self.schema.possible(name) & self.schema.possible(other))

    def spread(self, on):
        """A spread of a fragment that can apply, or None."""
        fitting = [name for name, body in self.fragments.items() if self.meets(on, body.on)]
        if not fitting or on.startswith("__"):
            return None
        name = self.random.choice(fitting)
        self.body.spreads.add(name)
        return Part("fragment spread", "...", name, *self.directives("FRAGMENT_SPREAD"))

    def inline(self, on, depth):
        """An inline fragment on a type that can apply, or on none."""
        schema = self.schema
        fitting = [it for it in [*schema.objects, *schema.interfaces, *schema.unions] if self.meets(on, it)] if not on.startswith("__") else [on]
        condition = self.random.choice(fitting) if self.random.random() < 0.8 and fitting else None
        head = [Part("type condition", "on", condition)] if condition else []
        return Part("inline fragment", "...", *head, *self.directives("INLINE_FRAGMENT"), self.selections(condition or on, depth + 1))

    def selection(self, on, depth):
        """A selection at random."""
        fields, chance = self.schema.fields(on), self.random.random()
        if depth < 4 and chance < 0.12:
            return self.inline(on, depth)
        if chance < 0.25:
            found = self.spread(on)
            if found:
                return found
        flat = [it for it in fields if not self.schema.is_composite(inner(it.type))]
        fields = fields if depth < 3 else flat
        if not fields or chance > 0.95:
            return self.field(Field("__typename", "String!"), depth)
        return self.field(self.random.choice(fields), depth)

    def selections(self, on, depth):
        """A set of selections."""
        count = self.random.choice([1, 1, 2, 3] if depth else [1, 2, 3, 4])
        found = [self.selection(on, depth) for _ in range(count)]
        if on == "Query" and depth == 0 and self.random.random() < 0.05:
            found.append(self.field(Field("__schema", "__Schema!"), 1))
        if on == "Query" and depth == 0 and self.random.random() < 0.05:
            found.append(self.field(Field("__type", "__Type", [Input("name", "String!")]), 1))
        return Part("selection set", "{", *found, "}")

    # ---- definitions

    def add_fragment(self, name, on):
        """A fragment on a type."""
        body = self.body = Body(name, on)
        uses = self.schema.used("FRAGMENT_DEFINITION")
        body.part = Part("fragment definition", "fragment", name, Part("type condition", "on", on), *uses, self.selections(on, 1))
        self.fragments[name] = body

    def add_operation(self, word, name):
        """An operation; one at the root of a subscription has one field, in a fragment or not."""
        on = self.schema.roots[word]
        body = self.body = Body(word, on)
        body.name, body.uses = name, self.schema.used(word.upper(), self.variable)
        if word == "subscription":
            one = self.field(self.random.choice(self.schema.fields(on)), 0, False)
            for _ in range(self.random.choice([0, 0, 0, 1, 2])):
                one = Part("inline fragment", "...", *self.random.choice([[], [Part("type condition", "on", on)]]), Part("selection set", "{", one, "}"))
            body.set = Part("selection set", "{", one, "}")
        else:
            body.set = self.selections(on, 0)
        self.operations.append(body)

    def reached(self, body, found=None):
        """The fragments that a body reaches."""
        found = set() if found is None else found
        for name in body.spreads - found:
            found.add(name)
            self.reached(self.fragments[name], found)
        return found

    def written(self):
        """All of it: operations with the variables that they reach, and the fragments that some operation reaches, in any order."""
        made, all_reached = [], set()
        for body in self.operations:
            reached = self.reached(body)
            all_reached |= reached
            names = body.variables.union(*(self.fragments[it].variables for it in reached))
            if body.head == "query" and not body.name and not names and not body.uses:
                made.append(Part("query shorthand", body.set))
                continue
            head = [body.head] + ([body.name] if body.name else [])
            made.append(Part(body.head, *head, self.definitions(names), *body.uses, body.set))
        made += [self.fragments[it].part for it in sorted(all_reached)]
        self.random.shuffle(made)
        return Part("document", *made)

