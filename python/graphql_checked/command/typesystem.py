"""Where the definitions of a schema text are, with their fields: for an editor, for warnings, and for preludes.

It passes over what it does not know, and decides no verdict."""

import json
import re
from dataclasses import dataclass, field
from typing import Dict, List, Match, Optional, Tuple

from .outline import TOKENS

NO_REASON = "No longer supported"
"""Why what is deprecated is so, where `@deprecated` gives no reason (3.13.3)."""
KINDS = ("schema", "scalar", "type", "interface", "union", "enum", "input", "directive")


@dataclass
class Member:
    """A field, an argument, a value or a root operation."""

    name: str
    start: int
    """The byte where its name begins."""
    end: int
    """The byte after it."""
    type: str = ""
    """The type as it is written, without spaces."""
    arguments: List["Member"] = field(default_factory=list)
    directives: List[str] = field(default_factory=list)
    reason: str = ""
    """Why it is deprecated, if it is."""
    description: str = ""

    @property
    def named_type(self) -> str:
        """The name in its type."""
        return self.type.strip("[]!")

    @property
    def signature(self) -> str:
        """The member as it is defined."""
        given = ", ".join(it.signature for it in self.arguments)
        return f"{self.name}{f'({given})' if given else ''}" + (f": {self.type}" if self.type else "")


@dataclass
class TypeSystemDefinition(Member):
    """A type, a directive or a schema, or an extension of one."""

    kind: str = "type"
    is_extension: bool = False
    members: List[Member] = field(default_factory=list)
    names: List[str] = field(default_factory=list)
    """The interfaces of a type, the members of a union, the locations of a directive."""
    first: int = 0
    """The byte where the definition begins, with its description."""
    last: int = 0
    """The byte after it."""


class Cursor:
    """The tokens of a text, with what is between them left out."""

    def __init__(self, text: bytes) -> None:
        self.tokens: List[Match[bytes]] = [it for it in TOKENS.finditer(text) if it.lastgroup != "skip"]
        self.at = 0

    @property
    def is_over(self) -> bool:
        """Whether no token is left."""
        return self.at >= len(self.tokens)

    def text(self, ahead: int = 0) -> str:
        """The token so far ahead; empty after the last."""
        index = self.at + ahead
        return self.tokens[index].group().decode("utf-8", "replace") if index < len(self.tokens) else ""

    def kind(self) -> str:
        """Its kind."""
        return "" if self.is_over else self.tokens[self.at].lastgroup or ""

    def take(self, wanted: str) -> bool:
        """Takes a token if it is so."""
        if self.text() == wanted:
            self.at += 1
            return True
        return False

    def name(self) -> Tuple[str, int, int]:
        """Takes a name, with its place; an empty one where none is."""
        if self.kind() != "name":
            return "", 0, 0
        token = self.tokens[self.at]
        self.at += 1
        return token.group().decode(), token.start(), token.end()

    def skip_brackets(self) -> None:
        """Takes brackets, with what is in them."""
        depth = 0
        while not self.is_over:
            depth += {"(": 1, "[": 1, "{": 1, ")": -1, "]": -1, "}": -1}.get(self.text(), 0)
            self.at += 1
            if depth <= 0:
                return

    def value(self) -> None:
        """Takes a value."""
        if self.text() in ("[", "{"):
            self.skip_brackets()
        else:
            self.take("$")
            self.at += 1

    def description(self) -> str:
        """Takes a description, if there is one."""
        if self.kind() != "string":
            return ""
        text = string_value(self.text())
        self.at += 1
        return text

    def type(self) -> str:
        """Takes a type."""
        found = ""
        while self.text() in ("[", "]", "!") or (self.kind() == "name" and not found.strip("[")):
            found += self.text()
            self.at += 1
        return found

    def directives(self, into: Member) -> None:
        """Takes directives."""
        while self.take("@"):
            name = self.name()[0]
            if name == "deprecated" and name not in into.directives:
                is_given = self.text() == "(" and self.text(1) == "reason" and self.text(3).startswith('"')
                into.reason = string_value(self.text(3)) if is_given else NO_REASON
            into.directives.append(name)
            if self.text() == "(":
                self.skip_brackets()


def string_value(token: str) -> str:
    """The value of a string (2.9.4), whose escapes are those of JSON; with other escapes, which the library refuses, as it is written."""
    if not token.startswith('"""'):
        try:
            return str(json.loads(token, strict=False)).encode().decode()  # a surrogate is no character
        except ValueError:
            return token[1:-1]
    lines = re.split("\r\n|\n|\r", token[3:-3].replace('\\"""', '"""'))
    common = min((len(it) - len(it.lstrip(" \t")) for it in lines[1:] if it.strip(" \t")), default=0)
    lines = [lines[0], *(it[common:] for it in lines[1:])]
    full = [index for index, it in enumerate(lines) if it.strip(" \t")]
    return "\n".join(lines[full[0] : full[-1] + 1]) if full else ""


def _members(cursor: Cursor, closing: str) -> List[Member]:
    """The members up to a bracket."""
    found = []
    while not cursor.is_over and not cursor.take(closing):
        description = cursor.description()
        name, start, end = cursor.name()
        if not name:
            cursor.at += 1
            continue
        member = Member(name, start, end, description=description)
        if cursor.take("("):
            member.arguments = _members(cursor, ")")
        if cursor.take(":"):
            member.type = cursor.type()
        if cursor.take("="):
            cursor.value()
        cursor.directives(member)
        found.append(member)
    return found


def _names(cursor: Cursor, *between: str) -> List[str]:
    """Names with signs between them."""
    found: List[str] = []
    while cursor.text() in between or (cursor.kind() == "name" and (not found or cursor.text(-1) in between)):
        if not any(cursor.take(it) for it in between):
            found.append(cursor.name()[0])
    return found


def _definition(cursor: Cursor) -> Optional[TypeSystemDefinition]:
    """The next definition, or None for a token that begins none."""
    description = cursor.description()
    is_extension = cursor.take("extend")
    kind, start, end = cursor.name()
    if kind not in KINDS:
        cursor.at += not kind
        return None
    is_directive = kind == "directive" and cursor.take("@")
    if kind != "schema":
        name, start, end = cursor.name()
    else:
        name = "schema"
    found = TypeSystemDefinition(name, start, end, description=description, kind=kind, is_extension=is_extension)
    if is_directive:
        if cursor.take("("):
            found.arguments = _members(cursor, ")")
        while cursor.kind() == "name" and cursor.text() in ("repeatable", "on"):
            cursor.at += 1
        found.names = _names(cursor, "|")
        return found
    if cursor.text() == "implements":
        cursor.at += 1
        found.names = _names(cursor, "&")
    cursor.directives(found)
    if cursor.take("="):
        found.names = _names(cursor, "|")
    if cursor.take("{"):
        found.members = _members(cursor, "}")
    return found


def definitions(text: bytes) -> List[TypeSystemDefinition]:
    """The definitions and extensions of a text, in order."""
    cursor, found = Cursor(text), []
    while not cursor.is_over:
        first = cursor.tokens[cursor.at].start()
        it = _definition(cursor)
        if it:
            it.first, it.last = first, cursor.tokens[min(cursor.at, len(cursor.tokens)) - 1].end()
            found.append(it)
    return found


@dataclass
class Types:
    """The types of a schema, with those that its extensions add."""

    types: Dict[str, List[Tuple[int, TypeSystemDefinition]]] = field(default_factory=dict)
    """Under each name its definition and extensions, each with the number of its text, from 0."""
    directives: Dict[str, Tuple[int, TypeSystemDefinition]] = field(default_factory=dict)
    roots: Dict[str, str] = field(default_factory=dict)

    @staticmethod
    def of(texts: List[bytes]) -> "Types":
        """The types of the texts of a schema."""
        found, defines_schema = Types(), False
        for number, text in enumerate(texts):
            for it in definitions(text):
                if it.kind == "directive":
                    found.directives.setdefault(it.name, (number, it))
                elif it.kind == "schema":
                    defines_schema = defines_schema or not it.is_extension
                    found.roots.update({member.name: member.named_type for member in it.members})
                else:
                    found.types.setdefault(it.name, []).insert(0 if not it.is_extension else 1 << 30, (number, it))
        if not defines_schema:
            names = {"query": "Query", "mutation": "Mutation", "subscription": "Subscription"}
            found.roots = {**{key: it for key, it in names.items() if it in found.types}, **found.roots}
        return found

    def all_members(self, type_name: str) -> Tuple[int, List[Member]]:
        """The fields or values of a type and its extensions, with the number of the text of its definition."""
        found = self.types.get(type_name, [])
        return (found[0][0] if found else 0), [member for _, it in found for member in it.members]

    def member(self, type_name: str, name: str) -> Optional[Tuple[int, Member]]:
        """A field or a value of a type, with the number of its text."""
        for number, it in self.types.get(type_name, []):
            for member in it.members:
                if member.name == name:
                    return number, member
        return None
