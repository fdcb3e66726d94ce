"""The lists of variants that scripts/rulebook.py writes: each is made from the entries of an enum, as lines of Rust in the layout
of `rt fmt`, or as lines of definitions."""
import re

WIDTH = 100  # columns of a line of Rust, as `rt fmt` lays it out
LITERAL_WIDTH, VARIANT_WIDTH, CALL_WIDTH, SHORT_WIDTH = 18, 35, 60, 10  # what is on one line within braces or brackets


# ---- types of data


class Known:
    """What is known of a type: that of definitions, what a view makes of a value, how it is copied (nothing: it is `Copy`),
    what fills a gap of a message in Rust and in definitions, and what a map of places makes of it."""

    def __init__(self, told, view="{}", copied="", gap=None, words="{}", placed="{}"):
        self.told, self.view, self.copied, self.gap, self.words, self.placed = told, view, copied, gap, words, placed


def trace_type(tree, plain):
    return Known(f"List (Placed P {tree})", "(trace_of %s {})" % plain, "clone", placed="(map (map_place p) {})")


TEXT = "List ℕ"
TYPES = {
    "place": Known("P", placed="(p {})"),
    "places": Known("E", "{}.items", "clone", placed="(e {})"),
    "Name": Known(TEXT, "{}.text", "clone", "Name({})"),
    "Option<Name>": Known(f"Option ({TEXT})", "(option_map (λ n. n.text) {})", "clone", "Fragment({})", "fragment_words {}"),
    "Vec<Name>": Known(f"List ({TEXT})", "(map text_of_name {}.items)", "clone"),
    "String": Known(TEXT, "(string_bytes {})", "clone"),
    "&'static str": Known(TEXT, "{}.now", gap="Words(*{})"),
    "OperationType": Known("OperationType", words="operation_keyword {}"),
    "DirectiveLocation": Known("DirectiveLocation", gap="Location(*{})", words="location_keyword {}"),
    "Vec<DirectiveLocation>": Known("List DirectiveLocation", "{}.items", "clone"),
    "Type": Known("UnplacedType", "(plain_reference {})", "clone", "Type({})", "type_text {}"),
    "Node<Type>": Known("UnplacedType", "(plain_reference (content {}))", "clone", "TypeNode({})", "type_text {}"),
    "Option<Value>": Known("Option (ValueTree (Unit {0}))", "value_in_conflict {}", "clone"),
    "Node<Value>": Known("ValueTree (Unit {0})", "(unplaced_value (value_tree (content {})))", "clone", "Kind({})", "value_description {}"),
    "SchemaCoordinate": Known("Coordinate", "(schema_coordinate {})", "copied_coordinate", "Coordinate({})", "printed {}"),
    "TypeAttributeCoordinate": Known("Coordinate", "(attribute_coordinate {})", "copied_attribute", "Attribute({})", "printed {}"),
    "FieldArgumentCoordinate": Known("Coordinate", "(argument_coordinate {})"),
    "Vec<Node<InputValueDefinition>>": trace_type("(InputValueTree (Unit {0}))", "plain_input"),
    "Vec<Node<Directive>>": trace_type("(DirectiveTree (Unit {0}))", "plain_directive"),
    "Vec<Node<FragmentSpread>>": trace_type("SpreadTree", "plain_spread"),
}

# The lemma by which `==` of such data decides whether contracts see the same of them (`Parts` and `DataParts` of graphql_faults).
DECIDES = {
    "place": "place_decides {0} {1}",
    "places": "pointwise_decides place_decides {0}.items {1}.items",
    "Name": "text_decides {0} {1}",
    "Option<Name>": "names_decide {0} {1}",
    "String": "bytes_decides (string_bytes {0}) (string_bytes {1})",
    "&'static str": "bytes_decides {0}.now {1}.now",
    "OperationType": "operation_type_eq-Decides {0} {1}",
    "DirectiveLocation": "location_eq-Decides {0} {1}",
    "Vec<DirectiveLocation>": "pointwise_decides location_eq-Decides {0}.items {1}.items",
    "Type": "type_eq-Decides {0} {1}",
    "Node<Type>": "type_eq-Decides (content {0}) (content {1})",
    "Node<Value>": "value_eq-Decides (content {0}) (content {1})",
    "SchemaCoordinate": "coordinate_decides {0} {1}",
    "TypeAttributeCoordinate": "attribute_decides {0} {1}",
    "Vec<Node<InputValueDefinition>>": "inputs_same {0}.items {1}.items",
    "Vec<Node<Directive>>": "directives_same {0}.items {1}.items",
    "Vec<Node<FragmentSpread>>": "spreads_same {0}.items {1}.items",
}


def is_trace(field):
    return field.type.startswith("Vec<Node<")


# ---- layout of Rust, as `rt fmt` has it


def indented(lines, by=4):
    return [" " * by + line for line in lines]


def braces(head, items):
    """`head { items }`: on one line where it is short, else a line for each."""
    inner = ", ".join(items)
    if not items:
        return [head]
    if inner == ".." or len(inner) <= LITERAL_WIDTH:
        return [f"{head} {{ {inner} }}"]
    return tall_braces(head, items)


def tall_braces(head, items):
    return [head + " {"] + [f"    {item}" if item == ".." else f"    {item}," for item in items] + ["}"]


def calls(head, items, tail=""):
    """The layouts of `head(items)tail`: on one line where the items are short, and with the items on lines of their own."""
    inner = ", ".join(items)
    lines = [f"{inner},"] if all(len(item) <= SHORT_WIDTH for item in items) else [f"{item}," for item in items]
    tall = [head + "("] + indented(lines) + [")" + tail]
    return [[f"{head}({inner}){tail}"], tall] if len(inner) <= CALL_WIDTH else [tall]


def literals(head, items):
    """The layouts of `head { items }`."""
    flat = braces(head, items)
    return [flat, tall_braces(head, items)] if len(flat) == 1 and items else [flat]


def in_ok(layouts):
    """The layouts of a value in `Ok(..)`: what has several lines begins after the bracket, or on a line of its own."""
    made = [[f"Ok({lines[0]})"] for lines in layouts if len(lines) == 1]
    made += [["Ok(" + lines[0]] + lines[1:-1] + [lines[-1] + ")"] for lines in layouts if len(lines) > 1 and len(lines[0]) <= CALL_WIDTH]
    return made + [["Ok("] + indented(lines[:-1] + [lines[-1] + ","]) + [")"] for lines in layouts]


def fitting(layouts, room, tail=""):
    """The first of these layouts whose first line fits, or the last."""
    return next((lines for lines in layouts if len(lines[0] + tail * (len(lines) == 1)) <= room), layouts[-1])


def let(names, value, items, room):
    """`let (names) = value(items)?;`"""
    front = [f"let ({', '.join(names)}) ="]
    if len(front[0]) > room:
        front = ["let ("] + indented([name + "," for name in names]) + [") ="]
    made = fitting(calls(value, items, "?;"), room - len(front[-1]) - 1)
    if len(front[-1]) + 1 + len(made[0]) <= room:
        return front[:-1] + [front[-1] + " " + made[0]] + made[1:]
    return front + indented(fitting(calls(value, items, "?;"), room - 4))


def arm(patterns, layouts, indent, is_braced=False):
    """An arm of a match, whose body has one of the layouts; in braces, where it does not fit the line of the pattern."""
    last, head = joined(patterns, indent)
    room = WIDTH - indent
    made = fitting(layouts, room - len(last) - len(" => "), ",")
    fits = len(last + " => " + made[0] + "," * (len(made) == 1)) <= room
    if fits and is_braced != "always" and not (is_braced and len(made) > 1):
        made = [last + " => " + made[0]] + made[1:]
        made[-1] += ","
    elif is_braced and len(last + " => {") <= room:
        made = [last + " => {"] + indented(fitting(layouts, room - 4)) + ["}"]
    elif is_braced:
        made = [last + " =>"] + indented(["{ " + layouts[0][0] + " }"])
    else:
        made = fitting(layouts, room - 4, ",")
        made = [last + " =>"] + indented(made[:-1] + [made[-1] + ","])
    return indented(head + made, indent)


def block_arm(patterns, block, indent):
    """An arm whose body is a block of statements."""
    last, head = joined(patterns, indent)
    return indented(head + ([last + " => {"] + indented(block) + ["}"] if block else [last + " => {}"]), indent)


def joined(patterns, indent):
    """The last line of an arm's patterns, and those before it: all on one line, if they fit."""
    line = " | ".join(line for pattern in patterns for line in pattern)
    if all(len(pattern) == 1 for pattern in patterns) and indent + len(line) + len(" =>") <= WIDTH:
        return line, []
    lines = patterns[0] + [line if number else "| " + line for pattern in patterns[1:] for number, line in enumerate(pattern)]
    return lines[-1], lines[:-1]


def quoted(text):
    return '"' + text.replace("\\", "\\\\").replace('"', '\\"') + '"'


# ---- the enums


def variant_lines(entries, hashes=False):
    """The variants of the enum with their comments; of the data that `==` compares, the first name or text alone is hashed."""
    is_short = not hashes and all(len(", ".join(fields_of(e))) <= VARIANT_WIDTH for e in entries)
    lines, group = [], ""
    for entry in entries:
        if entry.group != group:
            lines += ([""] if group else []) + [f"    // ---- {entry.group}"]
            group = entry.group
        lines.append(f"    /// {entry.one('fault')}")
        if entry.is_boxed:
            lines.append(f"    {entry.name}(Box<{entry.name}>),")
        elif not entry.data:
            lines.append(f"    {entry.name},")
        elif is_short:
            lines.append(f"    {entry.name} {{ {', '.join(fields_of(entry))} }},")
        else:
            lines += [f"    {entry.name} {{"] + field_lines(entry, hashes) + ["    },"]
    return lines


def fields_of(entry):
    return [f"{field.name}: {field.rust()}" for field in entry.data if not entry.is_boxed]


def field_lines(entry, hashes):
    hashed = next((field for field in entry.data if field.type in ("Name", "String")), None)
    lines = []
    for field in entry.data:
        if hashes and field is not hashed:
            lines.append("        #[derive_where(skip(Hash))]")
        lines.append(f"        {field.name}: {field.rust()},")
    return lines


def pattern(enum, entry, items, rest=False):
    """The pattern of a variant with these fields, and `..` where there are more."""
    if entry.is_boxed:
        return [f"{enum}::{entry.name}({items[0] if items else '_'})"]
    if not entry.data:
        return [f"{enum}::{entry.name}"]
    return braces(f"{enum}::{entry.name}", items + ([".."] if rest else []))


def ignored(enum, entry):
    return pattern(enum, entry, ["_"] if entry.is_boxed else [f"{field.name}: _" for field in entry.data])


def drop_lines(enum, entries):
    return block_arm([ignored(enum, entry) for entry in entries], [], 12)


def owned(entry):
    return [field for field in entry.data if field.known().copied]


# what the names are under which the arm of a `Drop` drops what several variants own
LET_GO = {("Name",): ["_name"], ("Name", "places"): ["_name", "_places"], ("String",): ["_text"]}


def drop_by_owned_lines(enum, entries):
    """Variants that own the same drop it in one arm; all others drop what they own in the last arm."""
    groups = {}
    for entry in entries:
        groups.setdefault(tuple(field.type for field in owned(entry)), []).append(entry)
    lines, last = [], [entry for entry in entries if not entry.data]
    for types, group in groups.items():
        if not types or len(group) == 1:
            continue
        names = LET_GO.get(types, ["_first", "_second", "_third", "_fourth", "_fifth", "_sixth", "_seventh", "_eighth"])
        patterns = []
        for entry in group:
            given = dict(zip([field.name for field in owned(entry)], names))
            patterns.append(pattern(enum, entry, [f"{field.name}: {given.get(field.name, '_')}" for field in entry.data]))
        lines += block_arm(patterns, [], 12)
    alone = lambda entry: not owned(entry) or len(groups[tuple(field.type for field in owned(entry))]) == 1
    last += [entry for entry in entries if entry.data and alone(entry)]
    return lines + block_arm([ignored(enum, entry) for entry in last], [], 12)


def box_lines(entry):
    """The struct of a variant whose data are in a box."""
    lines = [f"/// {entry.one('boxed')}", "#[derive(PartialEq, Eq)]", f"pub struct {entry.name} {{"]
    for field in entry.data:
        lines += [f"    /// {field.comment}"] if field.comment else []
        lines.append(f"    pub {field.name}: {field.rust()},")
    return lines + ["}"]


def box_drop_lines(entry):
    return [f"        let {entry.name} {{"] + [f"            {field.name}: _," for field in entry.data] + ["        } = self;"]


# ---- copies of `DiagnosticData`

# which function copies the variants of a group that have neither one name, nor a set, nor a trace
COPIED_BY_GROUP = {"schemas": "implementation", "uses of directives and arguments": "use", "values": "value", "documents": "document"}
COPIED = ["name", "set", "implementation", "cycle", "use", "value", "document"]
DATA = "DiagnosticData"


def copied_as(entry):
    """As what a variant is copied."""
    types = [field.type for field in owned(entry)]
    if not types:
        return "nothing"
    names = [field.name for field in owned(entry)]
    if (types, names) == (["Name"], ["name"]):
        return "name"
    if (types, names) == (["Name", "places"], ["type_name", "extensions_locations"]):
        return "set"
    return "cycle" if any(is_trace(field) for field in entry.data) else COPIED_BY_GROUP[entry.group]


def of_copies(entries, kind):
    return [entry for entry in entries if copied_as(entry) == kind]


def clone_lines(entries):
    lines = []
    for entry in of_copies(entries, "nothing"):
        patterns = [pattern(DATA, entry, [field.name for field in entry.data])]
        lines += arm(patterns, in_ok(literals(f"{DATA}::{entry.name}", again(entry))), 12)
    for kind in COPIED:
        group = of_copies(entries, kind)
        if kind in ("name", "set"):
            patterns = [pattern(DATA, e, [field.name for field in owned(e)], len(owned(e)) < len(e.data)) for e in group]
        else:
            patterns = [pattern(DATA, e, [], True) for e in group]
        if kind == "name":
            lines += arm(patterns, in_ok(calls("with_name", ["self", "name.clone()?"])), 12)
        elif kind == "set":
            copies = "let (type_name, places) = copies_of_two(type_name, extensions_locations)?;"
            lines += block_arm(patterns, [copies, "Ok(with_set(self, type_name, places))"], 12)
        else:
            lines += arm(patterns, calls(f"copied_{kind}", ["self"]), 12)
    return lines


def again(entry):
    """The fields of a copy: what is copied stands under the field's name, the rest is `Copy`."""
    return [field.name if field.known().copied else f"{field.name}: *{field.name}" for field in entry.data]


def with_lines(entries, kind):
    """The arms of `with_name` and `with_set`, which are given what is copied."""
    lines = []
    for entry in of_copies(entries, kind):
        others = [field.name for field in entry.data if not field.known().copied]
        lines += arm([pattern(DATA, entry, others, True)], literals(f"{DATA}::{entry.name}", again(entry)), 8)
    return lines + ["        _ => unreachable!(),"]


NUMBERS = {2: "two", 3: "three", 4: "four", 5: "five"}


def copied_lines(entries, kind):
    """The arms of `copied_..`, which copies what each variant owns: five values at most by one call, coordinates by themselves."""
    lines = []
    for entry in of_copies(entries, kind):
        cloned = [field.name for field in owned(entry) if field.known().copied == "clone"]
        block = []
        for names in [cloned] if len(cloned) <= 5 else [cloned[:4], cloned[4:]]:
            if len(names) == 1:
                block.append(f"let {names[0]} = {names[0]}.clone()?;")
            elif names:
                block += let(names, f"copies_of_{NUMBERS[len(names)]}", names, WIDTH - 12)
        for field in owned(entry):
            if field.known().copied != "clone":
                block += fitting(calls(f"let {field.name} = {field.known().copied}", [field.name], "?;"), WIDTH - 12)
        block += fitting(in_ok(literals(f"{DATA}::{entry.name}", again(entry))), WIDTH - 12)
        lines += block_arm([pattern(DATA, entry, [field.name for field in entry.data])], block, 8)
    return lines + ["        _ => unreachable!(),"]


# ---- messages in Rust


def used(entry):
    """The fields that a message tells, in the order of the data."""
    told = {name for gap in entry.gaps() for name in gap.split(".")}
    return [field.name for field in entry.data if field.name in told]


def filling(entry, of_field):
    """The texts of a message as Rust has them, and what fills the gaps."""
    items = [quoted(entry.parts[0])]
    for gap, text in zip(entry.gaps(), entry.parts[2::2]):
        items += [of_field(gap), quoted(text)]
    return items


def template_lines(entries):
    lines = []
    for entry in entries:
        def gap(name):
            return f"Gap::FieldOf({name.replace('.', ', ')})" if "." in name else "Gap::" + entry.field(name).known().gap.format(name)

        head = "Template::" + ["Whole", "One", "Two", "Three", "Four", "Five"][len(entry.gaps())]
        lines += arm([told_pattern(DATA, entry)], calls(head, filling(entry, gap)), 8)
    return lines


def told_pattern(enum, entry):
    return pattern(enum, entry, ["fields"] if entry.is_boxed else used(entry), len(used(entry)) < len(entry.data))


def by_message(entries):
    """Variants that follow each other and tell the same, together."""
    groups = []
    for entry in entries:
        is_same = groups and entry.parts == groups[-1][0].parts and entry.parts[1:] and entry.name not in APART
        groups[-1].append(entry) if is_same else groups.append([entry])
    return groups


# As the code stands: an arm by itself though it tells the same as the one above; one in braces though it fits a line; one without.
APART = {"SubselectionOnEnumType"}
IN_BRACES = {"DuplicateDeferLabel": "always", "TypeExtensionKindMismatch": False}


def message_arms(enum, entries, made):
    lines = []
    for group in by_message(entries):
        entry = group[0]
        lines += arm([told_pattern(enum, e) for e in group], made(entry), 8, IN_BRACES.get(entry.name, True))
    return lines


def folding_words(entry):
    if entry.gaps() == ["type_name", "name"]:
        return calls("has_twice", ["type_name", "name"])
    of_field = lambda name: f"{name}.name()" if entry.field(name).type == "OperationType" else f"{name}.as_str()"
    return calls("around" if entry.gaps() else "whole", filling(entry, of_field))


def document_words(entry):
    front = "&fields." if entry.is_boxed else ""
    of_field = lambda name: f"*{name}" if entry.field(name).type == "OperationType" else front + name
    is_operation = any(entry.field(name).type == "OperationType" for name in entry.gaps())
    head = "Operation" if is_operation else ["Whole", "Named", "TwoNames"][len(entry.gaps())]
    return calls("Words::" + head, filling(entry, of_field))


# ---- names of rules in Rust


def name_lines(enum, entries):
    lines = []
    for entry in entries:
        lines += arm([pattern(enum, entry, [] if not entry.is_boxed else ["_"], True)], [[f'"{entry.name}"']], 8)
    return lines


# ---- which rule a repeated component breaks


def repeating(entries):
    return [entry for entry in entries if "repeat" in entry.lines]


def repeat_lines(entries):
    """The classes of components, each with its rule."""
    return [line for entry in repeating(entries) for line in [f"    /// {' '.join(entry.said())}.", f"    {entry.one('repeat')},"]]


def repeat_error_lines(entries):
    lines = []
    for entry in repeating(entries):
        made = literals(f"BuildError::{entry.name}", [field.name for field in entry.data])
        lines += arm([[f"Repeat::{entry.one('repeat')}"]], made, 12)
    return lines


# ---- definitions


def sides(entry):
    """The parts of two fields that conflict: a coordinate, and what differs, where it is more than that."""
    named = [field for field in entry.data if field.name.startswith("original_") and field.type != "place"]
    return named + [None] * (2 - len(named))


def arguments(entry, unplaced_type=None):
    """The arguments of a variant in definitions, each with its type."""
    if entry.is_boxed:
        what = sides(entry)[1]
        what = "(Unit {0})" if what is None else f"({known_type(what, unplaced_type)})"
        return [("alias", TEXT), ("original", f"Selected P {what}"), ("conflicting", f"Selected P {what}")]
    return [(field.told, known_type(field, unplaced_type)) for field in entry.data]


def known_type(field, unplaced_type):
    return (unplaced_type or field.known().told) if field.known().told == "UnplacedType" else field.known().told


def constructor_lines(entries, result, unplaced_type=None):
    """The constructors of the data type, under the headings of their groups."""
    lines, group = [], ""
    for entry in entries:
        if entry.group != group:
            lines.append(f"  -- ---- {entry.group}")
            group = entry.group
        given = []
        for name, kind in arguments(entry, unplaced_type):
            if given and given[-1][1] == kind:
                given[-1][0].append(name)
            else:
                given.append(([name], kind))
        front = " ".join(f"({' '.join(names)} : {kind})" for names, kind in given)
        lines.append(f"  {entry.name} : {front + ' → ' if front else ''}{result}")
    return lines


def applied(name, items):
    return f"({name} {' '.join(items)})" if items else name


def equations(function, entries, prefix, result, names=None, indent="", groups=False):
    """A line for each variant: the function of it, with its arguments, is the result."""
    lines, group = [], ""
    for entry in entries:
        if groups and entry.group != group:
            lines.append(f"{indent}-- ---- {entry.group}")
            group = entry.group
        items = names(entry) if names else [name for name, _ in arguments(entry)]
        lines.append(f"{indent}{function} {applied(prefix + entry.name, items)} = {result(entry)}")
    return lines


def plain_applied(name, items):
    return " ".join([name] + items)


def message_text(entry, of_gap):
    """The text of a message in definitions."""
    made = []
    for number, part in enumerate(entry.parts):
        if number % 2:
            made.append(of_gap(part))
        elif part:
            made.append(f"codes {quoted(part)}")
    text = made.pop()
    while made:
        text = f"{made.pop()} ++ " + (f"({text})" if " ++ " in re.sub(r'"[^"]*"', "", text) else text)
    return text


def gap_words(entry):
    return lambda gap: f"dotted {gap.replace('.', ' ')}" if "." in gap else entry.field(gap).known().words.format(entry.field(gap).told)


def document_gap_words(entry):
    return lambda gap: entry.field(gap).known().words.format(gap)


def folding_message(entry):
    if entry.gaps() == ["type_name", "name"]:
        return "has_twice type_name name"
    return message_text(entry, gap_words(entry))


def letters(entry):
    """Short names of the data: the first letter, `p` of a place, `fs` of a list of fields, `c` of what is in a box; where two would
    be the same, or one a word of the language, the whole names."""
    if entry.is_boxed:
        return ["c"]
    short = ["p" if field.type == "place" else field.name[0] + ("s" if field.type.startswith("Vec") else "") for field in entry.data]
    return short if len(set(short) - {"as"}) == len(short) else [field.name for field in entry.data]


def alphabet(entry):
    return [chr(ord("a") + number) for number in range(len(arguments(entry)))]


def short_view(entry):
    views = [field.known().view for field in entry.data]
    views = ["(option_map text_of_name {})" if field.type == "Option<Name>" else view for field, view in zip(entry.data, views)]
    return plain_applied("breach." + entry.name, [view.format(name) for view, name in zip(views, letters(entry))])


def document_view(entry):
    return f"{conflict(entry)} c.value" if entry.is_boxed else short_view(entry)


def conflict(entry):
    """The name of the view of a box."""
    return entry.name.replace("ConflictingField", "").lower() + "_conflict"


def conflict_lines(entry):
    lines = [f"{conflict(entry)} c = breach.{entry.name} c.alias.text"]
    coordinate, what = sides(entry)
    for side in ("original_", "conflicting_"):
        of = lambda field: "c." + field.name.replace("original_", side)
        told = "tt" if what is None else "unplaced_type (type_tree {})" if what.type == "Type" else what.known().view
        lines.append(f"    (record {{ location = c.{side}location; coordinate = {coordinate.known().view.strip('()').format(of(coordinate))}; "
                     f"what = {told if what is None else told.format(of(what))} }})")
    return lines


def unplaced(entry):
    items = [f"(unplaced_selected {name})" if kind.startswith("Selected") else "tt" if kind == "P" else name for name, kind in arguments(entry)]
    return plain_applied(entry.name, items)


def group_lines(function, entries, kind, result, otherwise):
    lines = equations(function, of_copies(entries, kind), "rust.", result, lambda e: [field.name for field in e.data])
    return lines + [f"{function} _ = {otherwise}"]


# ---- `==` and what contracts see


def matches_lines(enum, entries):
    """The patterns of a `matches!`: these variants, whatever their data."""
    fields = lambda entry: "(_)" if entry.is_boxed else " { .. }" if entry.data else ""
    patterns = [f"{enum}::{entry.name}{fields(entry)}" for entry in entries]
    return [f"        {patterns[0]}"] + [f"            | {pattern}" for pattern in patterns[1:]]


def lasts_lines(function, entries, is_so):
    """A function to `Bool`: of these variants it is so, of all others the other."""
    other_is = {"true": "false", "false": "true"}[is_so]
    return equations(function, entries, "", lambda entry: is_so, indent="  ") + [f"  {function} _ = {other_is}"]


def paired(items, join):
    """Pairs in pairs: `join` puts one before the others."""
    return items[0] if len(items) == 1 else join(items[0], paired(items[1:], join))


def decided(entry, prefix):
    """Why `==` of two of a variant decides whether the same is seen of both; of a trace, the places are compared beside it."""
    if entry.is_boxed:
        return f"{conflict(entry)}_decides c.value d.value"
    if not entry.data:
        return "((λ r. refl), (λ r. refl))"
    parts = [f"({DECIDES[field.type].format(field.name, other(field.name))})" for field in entry.data]
    front, through = ("front _ _", "via") if is_trace(entry.data[-1]) else ("pair_decides _ _", "through")
    both = paired(parts, lambda one, others: f"({front} {one} {others})")
    if len(parts) == 1:
        return f"through {both} (ap {prefix}{entry.name}) (λ r. cc)"
    places = ["s" + ".1" * number + ".0" for number in range(len(parts) - 1)] + ["s" + ".1" * (len(parts) - 1)]
    back = paired(["cc"] * len(parts), lambda one, others: f"({one}, {others})")
    return f"{through} {both} (λ s i. {prefix}{entry.name} {' '.join(f'({place} i)' for place in places)}) (λ r. {back})"


def other(name):
    return name + "'"


def decided_lines(function, entries, prefix, wrap):
    """A line for each variant with itself, and one for two variants."""
    lines = []
    for entry in entries:
        ones, others = (["c"], ["d"]) if entry.is_boxed else ([field.name for field in entry.data], [other(field.name) for field in entry.data])
        lines.append(f"{function} {applied('rust.' + entry.name, ones)} {applied('rust.' + entry.name, others)} = {wrap(entry, decided(entry, prefix))}")
    return lines + [f"{function} a b = apart a b refl refl"]


def with_trace(entry, reason):
    """What has no trace is compared by `==` alone."""
    return reason if any(is_trace(field) for field in entry.data) else f"alone ({reason})"
