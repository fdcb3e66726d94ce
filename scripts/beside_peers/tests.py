"""Tests of texts, for classes: each is given what is told, the schema and the document, as tokens with one space between."""
import re

LOCATIONS = {"QUERY", "MUTATION", "SUBSCRIPTION", "FIELD", "FRAGMENT_DEFINITION", "FRAGMENT_SPREAD", "INLINE_FRAGMENT", "VARIABLE_DEFINITION", "SCHEMA", "SCALAR",
             "OBJECT", "FIELD_DEFINITION", "ARGUMENT_DEFINITION", "INTERFACE", "UNION", "ENUM", "ENUM_VALUE", "INPUT_OBJECT", "INPUT_FIELD_DEFINITION"}


def both(schema, document):
    """Both texts."""
    return schema + " \n " + document


def is_given_null(told, schema, document):
    """The argument that is told, as `@directive(argument:)`, is given null."""
    found = re.search(r"`@(\w+)\((\w+):\)`", told)
    return found and re.search(rf"@ {found[1]} \( (?:[^()]* )?{found[2]} : null\b", both(schema, document))


def has_surrogates(told, schema, document):
    """A text has an escape that names a surrogate."""
    return re.search(r"\\u[dD][89a-fA-F][0-9a-fA-F]{2}", both(schema, document))


def has_braced_escape(told, schema, document):
    """A text has an escape of later editions."""
    return re.search(r"\\u\{", both(schema, document))


def is_of_built_in_scalar(told, schema, document):
    """The directive that is told is used on an extension of a built-in scalar."""
    found = re.search(r"@(\w+)|[Dd]irective (\w+)", told)
    name = found and (found[1] or found[2])
    return name and re.search(rf"extend scalar (Int|Float|String|Boolean|ID)(?: @ \w+(?: \( [^()]*\))?)* @ {name}\b", schema)


def has_default_object(told, schema, document):
    """The field that is told is in an object of a default."""
    found = re.search(r'"(\w+)"', told)
    return found and re.search(rf"= [\[{{][^@()]*\b{found[1]} :", schema)


def is_custom(told, schema, document):
    """The type that is told is a custom scalar."""
    found = re.search(r"type `?\[*(\w+)", told)
    return found and re.search(rf"\bscalar {found[1]}\b", schema)


def variable_of(told):
    """The variable that is told."""
    found = re.search(r'Variable "\$?(\w+)"', told)
    return found and found[1]


def has_null_default(told, schema, document):
    """The default of the variable that is told is null."""
    return re.search(rf"\$ {variable_of(told)} : [\w\[\]! ]+ = null\b", document)


def uses(document, name):
    """Of each use of a variable, whether it is inside a list or object."""
    opened, words = [], document.split(" ")
    for index, word in enumerate(words):
        if word in ("(", "[", "{"):
            opened.append(word)
        elif word in (")", "]", "}") and opened:
            opened.pop()
        elif word == "$" and words[index + 1 : index + 2] == [name] and words[index + 2 : index + 3] != [":"]:
            yield opened[-1] != "("


def is_inside(told, schema, document):
    """The variable that is told is used inside a list or object."""
    return any(uses(document, variable_of(told)))


def has_default(told, schema, document):
    """The argument or field that is told has a default."""
    found = re.search(r'argument "(\w+)"', told) or re.search(r'Field "?\w+\.(\w+)', told)
    return found and re.search(rf"\b{found[1]} : [\w\[\]! ]+ = ", schema)


def is_twice_in_object(told, schema, document):
    """An object has the field that is told twice."""
    name = re.search(r"`(\w+)`", told)[1]
    return re.search(rf"[:=\[}}] \{{ (?:[^{{}}]* )?{name} : (?:[^{{}}]|\{{[^{{}}]*\}})* {name} :", schema)


def is_twice_within_object(told, schema, document):
    """An object inside another has the field that is told twice."""
    name = re.search(r"`(\w+)`", told)[1]
    for arguments in re.findall(r"\(([^()]*)\)", document):
        opened, words = [], arguments.split(" ")
        for word, after in zip(words, words[1:] + [""]):
            if word == "{":
                opened.append(0)
            elif word == "}" and opened:
                opened.pop()
            elif word == name and after == ":" and opened:
                opened[-1] += 1
                if len(opened) > 1 and opened[-1] > 1:
                    return True
    return False


def is_twice_defined(told, schema, document):
    """Definitions of arguments have the name that is told, of an argument or a key, twice."""
    name = (re.search(r"argument `(\w+)`", told) or re.search(r"`(\w+)`", told))[1]
    return re.search(rf"\( (?:(?:[^()]|\([^()]*\))* )?{name} : (?:[^()]|\([^()]*\))* {name} : [\[\w]", schema)


def is_on_enum_value_or_schema(told, schema, document):
    """The directive that is told is used on an enum value or on the schema."""
    name = re.search(r"@(\w+)`|^UnsupportedLocation: (\w+)", told)
    name = name[1] or name[2]
    return re.search(rf"enum \w+ [^{{}}]*\{{[^{{}}]* @ {name}\b|schema [^{{}}]*@ {name}\b", schema) and ("UnsupportedLocation" not in told or re.search("(ENUM_VALUE|SCHEMA) location", told))


def has_run_on_number(told, schema, document):
    """A number is followed by a letter."""
    return re.search(r"(?<![\w.\"])-?\d+(\.\d+)?([eE][+-]?\d+)?[A-Za-z_]", both(schema, document))


def is_defined_again(told, schema, document):
    """The schema defines the built-in directive that is told."""
    found = re.search(r"[Dd]irective \"?@?(\w+)", told)
    return found and re.search(rf"directive @ {found[1]}\b", schema)


def has_control(told, schema, document):
    """A text has a control character."""
    return re.search(r"[\x00-\x08\x0b\x0c\x0e-\x1f]", both(schema, document))


def is_repeatable(told, schema, document):
    """The directive that is told may be repeated."""
    name = re.search(r"@(\w+)", told)[1]
    return re.search(rf"(?s)directive @ {name} (?:\(.*?\) )?repeatable", schema)


def has_wide_int(told, schema, document):
    """A document has an integer that 64 bits do not hold."""
    return any(abs(int(it)) > 2 ** 63 - 1 for it in re.findall(r"(?<![\w.])-?\d+(?![\w.])", document))


def has_infinite_float(told, schema, document):
    """A document has a number that no finite Float is."""
    return any(abs(float(it)) == float("inf") for it in re.findall(r"(?<![\w.])-?\d+(?:\.\d+)?[eE][+-]?\d+", document))


def fits(ty, place):
    """Whether a value of the type may stand where the other is asked for (5.8.5, AreTypesCompatible)."""
    if place.endswith("!"):
        return ty.endswith("!") and fits(ty[:-1], place[:-1])
    if ty.endswith("!"):
        return fits(ty[:-1], place)
    if ty.startswith("[") and place.startswith("["):
        return fits(ty[1:-1], place[1:-1])
    return ty == place


def is_only_nullable(told, schema, document):
    """The variable that is told would fit if the place took null, and some place of that type has a default."""
    found = re.search(r'of type "(.*?)" used in position expecting type "(.*)!"', told)
    spaced = found and " ".join(re.findall(r"\w+|[\[\]!]", found[2]))
    return found and fits(found[1], found[2]) and f": {spaced} ! =" in schema


def has_variable_on_variable(told, schema, document):
    """A directive on a variable's definition is given a variable."""
    return re.search(r"\$ \w+ : [\w\[\]! ]+(?:= [^@$]+ )?@ \w+ \([^)]*\$ \w", document)


def has_unknown_location(told, schema, document):
    """A directive's definition has a location that is none."""
    lists = re.findall(r"directive @ \w+ (?:\([^()]*(?:\([^()]*\)[^()]*)*\) )?on ((?:\w+ \| )*\w+)", schema)
    return any(set(it.split(" | ")) - LOCATIONS for it in lists)
