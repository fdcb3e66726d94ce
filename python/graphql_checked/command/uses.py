"""What the names of a document mean in a schema: for an editor, and for warnings of what is deprecated.

It passes over what it does not know, and decides no verdict."""

from dataclasses import dataclass
from typing import List, Optional, Sequence, Tuple

from .outline import OPERATIONS
from .typesystem import Cursor, Member, Types

META = {"__schema": "__Schema", "__type": "__Type", "__typename": "String"}


@dataclass(frozen=True)
class Use:
    """A name of a document."""

    kind: str
    """`field`, `argument`, `input field`, `value`, `type`, `fragment` or `directive`."""
    name: str
    start: int
    """The byte of the text where it begins."""
    end: int
    owner: str = ""
    """What it is a part of: the type of a field, the field of an argument."""
    member: Optional[Member] = None
    """Its definition, if the schema has it."""
    text: int = 0
    """The number of the schema text that has the definition."""

    @property
    def coordinate(self) -> str:
        """Its coordinate in the schema."""
        return {"argument": f"{self.owner}({self.name}:)", "directive": f"@{self.name}"}.get(self.kind, f"{self.owner}.{self.name}" if self.owner else self.name)


class Walk:
    """Goes through a document."""

    def __init__(self, text: bytes, types: Types) -> None:
        self.cursor, self.types = Cursor(text), types
        self.found: List[Use] = []

    def document(self) -> List[Use]:
        """The uses of all definitions."""
        cursor = self.cursor
        while not cursor.is_over:
            word = cursor.text()
            if word == "{":
                self.selections(self.types.roots.get("query", ""))
            elif word.encode() in OPERATIONS:
                cursor.at += 1
                cursor.name()
                self.variables()
                self.directives()
                self.selections(self.types.roots.get(word, ""))
            elif word == "fragment":
                cursor.at += 1
                self.add("fragment", *cursor.name())
                cursor.take("on")
                self.selections(self.type_condition())
            else:
                cursor.at += 1
        return self.found

    def add(self, kind: str, name: str, start: int, end: int, owner: str = "", found: Optional[Tuple[int, Member]] = None) -> None:
        """Keeps a use."""
        if name:
            self.found.append(Use(kind, name, start, end, owner, found[1] if found else None, found[0] if found else 0))

    def type_name(self) -> str:
        """Takes the name of a type."""
        name, start, end = self.cursor.name()
        self.add("type", name, start, end, "", next(iter(self.types.types.get(name, [])), None))
        return name

    def type_condition(self) -> str:
        """Takes the name of a type, and directives after it."""
        name = self.type_name()
        self.directives()
        return name

    def variables(self) -> None:
        """Takes the definitions of variables."""
        cursor = self.cursor
        if not cursor.take("("):
            return
        while not cursor.is_over and not cursor.take(")"):
            named = ""
            if cursor.take("$"):
                cursor.name()
                cursor.take(":")
                while cursor.text() in ("[", "]", "!") or (cursor.kind() == "name" and not named):
                    if cursor.kind() == "name":
                        named = self.type_name()
                    else:
                        cursor.at += 1
                if cursor.take("="):
                    self.value(named)
                self.directives()
            else:
                cursor.at += 1

    def directives(self) -> None:
        """Takes directives."""
        while self.cursor.take("@"):
            name, start, end = self.cursor.name()
            found = self.types.directives.get(name)
            self.add("directive", name, start, end, "", found)
            self.arguments(f"@{name}", found)

    def arguments(self, owner: str, of: Optional[Tuple[int, Member]]) -> None:
        """Takes arguments."""
        cursor = self.cursor
        if not cursor.take("("):
            return
        while not cursor.is_over and not cursor.take(")"):
            self.entry("argument", owner, of[1].arguments if of else (), of[0] if of else 0)

    def entry(self, kind: str, owner: str, members: Sequence[Member], number: int) -> None:
        """Takes an argument or a field of an object, with its value."""
        name, start, end = self.cursor.name()
        if not name:
            self.cursor.at += 1
            return
        member = next((it for it in members if it.name == name), None)
        self.add(kind, name, start, end, owner, (number, member) if member else None)
        if self.cursor.take(":"):
            self.value(member.named_type if member else "")

    def value(self, type_name: str) -> None:
        """Takes a value of a type."""
        cursor = self.cursor
        if cursor.take("["):
            while not cursor.is_over and not cursor.take("]"):
                self.value(type_name)
        elif cursor.take("{"):
            while not cursor.is_over and not cursor.take("}"):
                number, members = self.types.all_members(type_name)
                self.entry("input field", type_name, members, number)
        elif cursor.kind() == "name":
            name, start, end = cursor.name()
            found = self.types.member(type_name, name)
            if found:
                self.add("value", name, start, end, type_name, found)
        else:
            cursor.take("$")
            cursor.at += 1

    def selections(self, parent: str) -> None:
        """Takes selections over a type."""
        cursor = self.cursor
        if not cursor.take("{"):
            return
        while not cursor.is_over and not cursor.take("}"):
            if cursor.take("..."):
                self.spread(parent)
            elif cursor.kind() == "name":
                self.field(parent)
            else:
                cursor.at += 1

    def spread(self, parent: str) -> None:
        """Takes what follows `...`."""
        cursor = self.cursor
        if cursor.take("on"):
            self.selections(self.type_condition())
        elif cursor.kind() == "name":
            self.add("fragment", *cursor.name())
            self.directives()
        else:
            self.directives()
            self.selections(parent)

    def field(self, parent: str) -> None:
        """Takes a field."""
        cursor = self.cursor
        name, start, end = cursor.name()
        if cursor.take(":"):
            name, start, end = cursor.name()
        found = self.types.member(parent, name)
        self.add("field", name, start, end, parent, found)
        self.arguments(f"{parent}.{name}", found)
        self.directives()
        self.selections(found[1].named_type if found else META.get(name, ""))


def uses(text: bytes, types: Types) -> List[Use]:
    """What the names of a document mean."""
    return Walk(text, types).document()
