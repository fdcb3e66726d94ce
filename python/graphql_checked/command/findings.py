"""What is found, at the places of files."""

import bisect
from dataclasses import dataclass, field
from typing import TYPE_CHECKING, Dict, Iterable, List, Mapping, Optional, Sequence, Tuple

from .. import Fault, Related
from .sources import File, Source

if TYPE_CHECKING:
    from .schemas import SchemaText

DOCUMENT = "document"
"""The name of the document for the library; the texts of a schema have their numbers, from 0."""
MOST = 80
"""How many characters of a line are shown before a place, in it and after it."""


@dataclass(frozen=True)
class Place:
    """A place of a file. What is made, and no file's, has a path alone."""

    path: str
    line: Optional[int] = None
    column: Optional[int] = None
    end_line: Optional[int] = None
    end_column: Optional[int] = None
    offset: Optional[int] = None
    length: Optional[int] = None

    def __str__(self) -> str:
        return self.path if self.line is None else f"{self.path}:{self.line}:{self.column}"


@dataclass(frozen=True)
class Noted:
    """Another place that belongs to a finding."""

    place: Place
    words: str


@dataclass(frozen=True)
class Finding:
    """What is wrong, or is warned of."""

    place: Place
    rule: str
    message: str
    hint: Optional[str] = None
    related: Tuple[Noted, ...] = ()
    fields: Mapping[str, str] = field(default_factory=dict, hash=False, compare=False)
    severity: str = "error"
    excerpt: Optional[Tuple[str, str, str]] = field(default=None, hash=False, compare=False)
    """Its line: what is before the place, in it, and after it."""

    @property
    def key(self) -> Tuple[object, ...]:
        """What is equal for findings that are one."""
        return (self.place.path, self.place.offset, self.place.length, self.rule, self.message)

    @property
    def order(self) -> Tuple[str, int, str]:
        """Where it is among others."""
        return (self.place.path, -1 if self.place.offset is None else self.place.offset, self.rule)


def place_in(file: File, start: int, end: int) -> Place:
    """The place of these bytes of a file."""
    line, column = file.position(start)
    end_line, end_column = file.position(end)
    return Place(file.path, line, column, end_line, end_column, start, end - start)


def shown_text(data: bytes) -> str:
    """Bytes of a line as text, without its end."""
    return data.decode("utf-8", "replace").rstrip("\r\n")


def excerpt(file: File, start: int, end: int) -> Tuple[str, str, str]:
    """The line in which a place begins, as far as it is near."""
    line = file.line_of(start)
    last = file.starts[line + 1] if line + 1 < len(file.starts) else len(file.data)
    before, marked = shown_text(file.data[file.starts[line] : start]), shown_text(file.data[start : min(end, last)])
    after = shown_text(file.data[end:last]) if end < last else ""
    if len(marked) > MOST:
        marked, after = marked[:MOST], "…"
    return ("…" + before[-MOST:] if len(before) > MOST else before), marked, (after[:MOST] + "…" if len(after) > MOST else after)


@dataclass(frozen=True)
class Part:
    """Bytes of a source in what is checked as one document."""

    at: int
    """The byte of the document where they begin."""
    source: Source
    start: int
    """The byte of the source's text where they begin."""


class PartsMap:
    """The places of files for those of the library."""

    def __init__(self, parts: Sequence[Part], texts: Sequence["SchemaText"], document: bytes = b"") -> None:
        self.parts, self.texts = parts, texts
        self.starts = [it.at for it in parts]
        self.document = File(DOCUMENT, document)

    def source_at(self, key: Optional[str], offset: int) -> Optional[Tuple[Source, int]]:
        """The source that has a byte, and the byte of the source's text."""
        if key == DOCUMENT:
            part = self.parts[max(bisect.bisect_right(self.starts, offset) - 1, 0)]
            return part.source, offset - part.at + part.start
        source = None if key is None else self.texts[int(key)].source
        return (source, offset) if source else None

    def path(self, key: Optional[str]) -> str:
        """The path of a text that is no file's."""
        return "<built in>" if key is None else self.texts[int(key)].path if key != DOCUMENT else key

    def span(self, key: Optional[str], offset: Optional[int], length: int) -> Tuple[Place, Optional[File]]:
        """A place of the library, with the file that has it."""
        found = None if offset is None else self.source_at(key, offset)
        if not found:
            return Place(self.path(key)), None
        source, at = found
        start = source.in_file(at)
        end = source.in_file(at + length - 1) + 1 if length else start
        return place_in(source.file, start, max(start, end)), source.file

    def noted(self, it: Related) -> Noted:
        """Another place of a fault, whose line and column the library tells."""
        offset = None
        if it.line is not None and it.column is not None:
            text = self.document if it.path == DOCUMENT else File("", self.texts[int(it.path)].text) if it.path else None
            offset = text.offset(it.line, it.column) if text else None
        return Noted(self.span(it.path, offset, 0)[0], it.words)

    def finding(self, fault: Fault) -> Finding:
        """A fault at its place."""
        place, file = self.span(fault.path, fault.offset, fault.length or 0)
        shown = None
        if file and place.offset is not None and place.length is not None:
            shown = excerpt(file, place.offset, place.offset + place.length)
        related = tuple(map(self.noted, fault.related))
        return Finding(place, fault.rule, fault.message, fault.hint, related, fault.fields, "error", shown)


def findings(report: Iterable[Fault], places: PartsMap) -> List[Finding]:
    """The faults of a report at their places; without those of values at a variable whose usage is told already."""
    found: List[Finding] = []
    usage = None
    for it in map(places.finding, report):
        end = (it.place.path, it.place.end_line, it.place.end_column)
        if it.rule == "DisallowedVariableUsage":
            usage = end
        if it.rule != "UnsupportedValueType" or end != usage:
            found.append(it)
    return found


def once(found: Iterable[Finding]) -> List[Finding]:
    """The findings in the order of paths and places, each once."""
    kept: Dict[Tuple[object, ...], Finding] = {}
    for it in found:
        kept.setdefault(it.key, it)
    return sorted(kept.values(), key=lambda it: it.order)
