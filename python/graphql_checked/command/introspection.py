"""The text of a schema for the result of the introspection query (section 4 of the specification)."""

import json
from typing import Any, Dict, Iterator, List, Mapping, Optional

BUILT_IN_SCALARS = {"Int", "Float", "String", "Boolean", "ID"}
BUILT_IN_DIRECTIVES = {"skip", "include", "deprecated", "specifiedBy", "oneOf"}
Told = Mapping[str, Any]


def schema_of(text: bytes) -> Told:
    """The `__schema` of an introspection result. Raises ValueError where the text is none."""
    told = json.loads(text.decode("utf-8-sig"))
    for key in ("data", "__schema"):
        if isinstance(told, dict) and key in told:
            told = told[key]
    if not isinstance(told, dict) or not isinstance(told.get("types"), list):
        raise ValueError("it has no `__schema` with `types`")
    return told


def quoted(text: str) -> str:
    """A string of GraphQL. Its escapes are those of JSON."""
    return json.dumps(text, ensure_ascii=False)


def described(told: Told, indent: str) -> str:
    """The description of a definition, on a line of its own."""
    text = told.get("description")
    return f"{indent}{quoted(text)}\n" if isinstance(text, str) else ""


def type_text(told: Told) -> str:
    """A reference to a type."""
    if told["kind"] == "NON_NULL":
        return type_text(told["ofType"]) + "!"
    if told["kind"] == "LIST":
        return f"[{type_text(told['ofType'])}]"
    return str(told["name"])


def deprecation(told: Told) -> str:
    """The directive of what is deprecated."""
    if not told.get("isDeprecated"):
        return ""
    reason = told.get("deprecationReason")
    return " @deprecated" if reason is None else f" @deprecated(reason: {quoted(reason)})"


def input_value(told: Told) -> str:
    """An argument or an input field, without its description."""
    default = told.get("defaultValue")
    value = "" if default is None else f" = {default}"
    return f"{told['name']}: {type_text(told['type'])}{value}{deprecation(told)}"


def arguments(values: Optional[List[Told]], indent: str) -> str:
    """The arguments of a field or a directive."""
    if not values:
        return ""
    lines = "".join(f"{described(it, indent + '  ')}{indent}  {input_value(it)}\n" for it in values)
    return f"(\n{lines}{indent})"


def block(lines: List[str]) -> str:
    """Lines in braces; nothing where there is none."""
    return " {\n" + "".join(f"{it}\n" for it in lines) + "}" if lines else ""


def field(told: Told) -> str:
    """A field with its description."""
    return f"{described(told, '  ')}  {told['name']}{arguments(told.get('args'), '  ')}: {type_text(told['type'])}{deprecation(told)}"


def names(told: Optional[List[Told]], before: str, between: str) -> str:
    """The names of types after a word; nothing where there is none."""
    return before + between.join(it["name"] for it in told) if told else ""


def type_definition(told: Told) -> str:
    """A type."""
    kind, name = told["kind"], told["name"]
    if kind == "SCALAR":
        url = told.get("specifiedByURL", told.get("specifiedByUrl"))
        text = f"scalar {name}" + ("" if url is None else f" @specifiedBy(url: {quoted(url)})")
    elif kind in ("OBJECT", "INTERFACE"):
        word = "type" if kind == "OBJECT" else "interface"
        text = f"{word} {name}{names(told.get('interfaces'), ' implements ', ' & ')}{block([field(it) for it in told.get('fields') or []])}"
    elif kind == "UNION":
        text = f"union {name}{names(told.get('possibleTypes'), ' = ', ' | ')}"
    elif kind == "ENUM":
        values = [f"{described(it, '  ')}  {it['name']}{deprecation(it)}" for it in told.get("enumValues") or []]
        text = f"enum {name}{block(values)}"
    elif kind == "INPUT_OBJECT":
        fields = [f"{described(it, '  ')}  {input_value(it)}" for it in told.get("inputFields") or []]
        text = f"input {name}{block(fields)}"
    else:
        raise ValueError(f"`{kind}` is no kind of type")
    return f"{described(told, '')}{text}\n"


def directive_definition(told: Told) -> str:
    """A directive."""
    repeatable = " repeatable" if told.get("isRepeatable") else ""
    text = f"directive @{told['name']}{arguments(told.get('args'), '')}{repeatable} on {' | '.join(told['locations'])}"
    return f"{described(told, '')}{text}\n"


def parts(told: Told) -> Iterator[str]:
    """The definitions of a schema; what each schema has of itself is left out."""
    roots: Dict[str, Optional[Told]] = {it: told.get(f"{it}Type") for it in ("query", "mutation", "subscription")}
    lines = [f"  {key}: {it['name']}" for key, it in roots.items() if it]
    yield f"{described(told, '')}schema{block(lines)}\n"
    for directive in told.get("directives") or []:
        if directive["name"] not in BUILT_IN_DIRECTIVES:
            yield directive_definition(directive)
    for it in told["types"]:
        if not it["name"].startswith("__") and it["name"] not in BUILT_IN_SCALARS:
            yield type_definition(it)


def sdl(text: bytes) -> bytes:
    """The schema text for an introspection result. Raises ValueError where it is none."""
    try:
        return "\n".join(parts(schema_of(text))).encode("utf-8")
    except (KeyError, TypeError, AttributeError) as error:
        raise ValueError(f"a part of the introspection result is missing or of another kind: {error}") from None
