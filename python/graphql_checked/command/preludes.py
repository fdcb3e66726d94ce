"""Schema texts that servers and clients bring along: `--prelude federation`, `appsync` or `relay`."""

import os
import re
from typing import Iterator, List, Sequence, Tuple

from .failures import WRONG_WORDS, Stop
from .typesystem import Types, definitions

RENAMED = re.compile(rb'name:\s*"@(\w+)"[\s,]*as:\s*"@(\w+)"')
FOLDER = os.path.join(os.path.dirname(os.path.dirname(os.path.abspath(__file__))), "preludes")


def names() -> List[str]:
    """The names of the preludes."""
    return sorted(it[: -len(".graphql")] for it in os.listdir(FOLDER) if it.endswith(".graphql"))


def text(name: str) -> bytes:
    """The text of a prelude."""
    if name not in names():
        raise Stop(WRONG_WORDS, f"there is no prelude `{name}`: there are {', '.join(names())}")
    with open(os.path.join(FOLDER, f"{name}.graphql"), "rb") as file:
        return file.read()


def without(prelude: bytes, types: Types) -> bytes:
    """A prelude without the definitions that a schema has itself."""
    kept = []
    for it in definitions(prelude):
        defined = types.types.get(it.name, [])
        if not (it.name in types.directives if it.kind == "directive" else any(not of.is_extension for _, of in defined)):
            kept.append(prelude[it.first : it.last])
    return b"\n\n".join(kept) + b"\n"


def renamed(schema: Sequence[bytes]) -> Iterator[bytes]:
    """The directives of Federation under the names that a schema uses: those that it does not import begin with `federation__`, and
    `import` can give another by `as`."""
    written, prelude = b"\n".join(schema), text("federation")
    names = {(it, b"federation__" + it) for it in re.findall(rb"@federation__(\w+)", written)}
    names |= set(RENAMED.findall(written))
    for it in definitions(prelude):
        for new in sorted(new for name, new in names if it.kind == "directive" and name == it.name.encode()):
            yield prelude[it.first : it.start] + new + prelude[it.end : it.last] + b"\n"


def of_federation(types: Types, schema: Sequence[bytes]) -> bytes:
    """What a subgraph gets that depends on its schema."""
    lines, entities = [], []
    keys = {"key", "federation__key", *(new.decode() for name, new in RENAMED.findall(b"\n".join(schema)) if name == b"key")}
    for name, found in types.types.items():
        if found[0][1].is_extension:
            lines.append(f"{found[0][1].kind} {name}")
        if any(it.kind == "type" and keys & set(it.directives) for _, it in found):
            entities.append(name)
    root = types.roots.get("query", "Query")
    fields = "_service: _Service!"
    if entities and "_Entity" not in types.types:
        lines.append(f"union _Entity = {' | '.join(sorted(entities))}")
        fields += " _entities(representations: [_Any!]!): [_Entity]!"
    if not types.member(root, "_service"):
        lines.append(f"{'extend ' if root in types.types else ''}type {root} {{ {fields} }}")
    return "".join(f"{it}\n" for it in lines).encode() + b"".join(renamed(schema))


def texts(chosen: Sequence[str], schema: Sequence[bytes]) -> List[Tuple[str, bytes]]:
    """The texts of preludes, with the names under which they are told."""
    types = Types.of(list(schema)) if chosen else Types()
    found = [(f"<prelude {it}>", without(text(it), types)) for it in chosen]
    return found + ([("<prelude federation, of this schema>", of_federation(types, schema))] if "federation" in chosen else [])
