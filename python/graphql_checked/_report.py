"""What is found of texts, from the lines of JSON that the library tells."""

import json
from dataclasses import dataclass, field
from typing import Any, Dict, Iterator, List, Mapping, Optional, Sequence, Tuple, Union, overload


@dataclass(frozen=True)
class Related:
    """Another place that belongs to a fault."""

    path: Optional[str]
    """The path that was given for its text; None where none was given, and for what is built in."""
    line: Optional[int]
    """Its line, from 1, if it has a place."""
    column: Optional[int]
    """Its column in characters, from 1."""
    words: str
    """What stands there."""

    def __str__(self) -> str:
        place = "<built in>" if self.line is None else f"{self.path or 'text'}:{self.line}:{self.column}"
        return f"{place}: {self.words}"


@dataclass(frozen=True)
class Fault:
    """What is wrong, and where. What is built in has no place."""

    path: Optional[str]
    """The path that was given for the text; None where none was given."""
    text: Optional[int]
    """The number of the text, from 1: the schema texts in order, the document last."""
    line: Optional[int]
    """Its line, from 1."""
    column: Optional[int]
    """Its column in characters, from 1."""
    end_line: Optional[int]
    """The line of its end."""
    end_column: Optional[int]
    """The column of the place after its last character."""
    offset: Optional[int]
    """How many bytes of the text, in UTF-8, are before it."""
    length: Optional[int]
    """How many bytes long it is."""
    rule: str
    """The rule of docs/RULES.md; or `Syntax` where a text is not read, `Nesting` or `RecursionLimitError` past a limit, `Spent` where
    numbers ran out."""
    message: str
    """What is wrong."""
    hint: Optional[str]
    """What may be meant, or what to do."""
    related: Tuple[Related, ...] = ()
    """Other places that belong to it."""
    fields: Mapping[str, str] = field(default_factory=dict, hash=False)
    """Its data, as `type_name`."""

    def __str__(self) -> str:
        place = "" if self.line is None else f"{self.path or f'text {self.text}'}:{self.line}:{self.column}: "
        return f"{place}{self.rule}: {self.message}" + (f" ({self.hint})" if self.hint else "")


@dataclass(frozen=True)
class Report(Sequence[Fault]):
    """What is found of texts: a sequence of faults. **It is true where the texts are accepted**, and so where it has no faults:
    otherwise than a list, of which none is false. `accepted` says the same by name."""

    faults: Tuple[Fault, ...]
    """Each thing that is wrong, of the first stage that finds any, in the order of texts and places."""

    @property
    def accepted(self) -> bool:
        """Whether the texts are accepted."""
        return not self.faults

    def __bool__(self) -> bool:
        return self.accepted

    def __iter__(self) -> Iterator[Fault]:
        return iter(self.faults)

    def __len__(self) -> int:
        return len(self.faults)

    @overload
    def __getitem__(self, index: int) -> Fault: ...

    @overload
    def __getitem__(self, index: slice) -> Tuple[Fault, ...]: ...

    def __getitem__(self, index: Union[int, slice]) -> Union[Fault, Tuple[Fault, ...]]:
        return self.faults[index]

    def __str__(self) -> str:
        return "\n".join(map(str, self.faults)) or "accepted"


class Paths:
    """The paths of texts. The library is told their numbers in their place, as `text 1`, so a path may be any string, or none."""

    def __init__(self, paths: Sequence[Optional[str]]) -> None:
        self.paths = paths

    def number(self, name: str) -> Optional[int]:
        """The number of the text that the library has under this name."""
        word, _, number = name.rpartition(" ")
        return int(number) if word == "text" and number.isdigit() else None

    def path(self, name: str) -> Optional[str]:
        """Its path."""
        number = self.number(name)
        return self.paths[number - 1] if number else None

    def fault(self, told: Dict[str, Any]) -> Fault:
        """The fault of an object."""
        related = (Related(self.path(it["path"]), it["line"], it["column"], it["words"]) for it in told["related"])
        return Fault(
            self.path(told["path"]),
            self.number(told["path"]),
            told["line"],
            told["column"],
            told["end"] and told["end"]["line"],
            told["end"] and told["end"]["column"],
            told["offset"],
            told["length"],
            told["rule"],
            told["message"],
            told["hint"],
            tuple(related),
            told["fields"],
        )

    def report(self, told: bytes) -> Report:
        """The report of these lines."""
        lines: List[bytes] = told.split(b"\n")[:-1]
        return Report(tuple(self.fault(json.loads(line)) for line in lines))
