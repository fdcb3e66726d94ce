"""Files, and the texts of GraphQL in them, with the places of both."""

import bisect
import functools
from dataclasses import dataclass, field
from typing import Dict, List, Optional, Tuple

from .outline import Definition, definitions, is_type_system

JAVASCRIPT = (".ts", ".tsx", ".js", ".jsx", ".mjs", ".cjs", ".mts", ".cts", ".vue", ".svelte", ".astro")
PYTHON = (".py", ".pyi")
TEXTS = (".graphql", ".graphqls", ".gql")


@dataclass
class File:
    """A file, under the path by which it is told."""

    path: str
    data: bytes

    @functools.cached_property
    def starts(self) -> List[int]:
        """Where each line begins: after LF, CR LF or CR."""
        found, at = [0], 0
        for line in self.data.splitlines(keepends=True):  # of bytes: LF, CR LF, CR
            at += len(line)
            found.append(at)
        return found if not self.data or self.data.endswith((b"\n", b"\r")) else found[:-1]

    def line_of(self, offset: int) -> int:
        """The number, from 0, of the line that has a byte."""
        return bisect.bisect_right(self.starts, offset) - 1

    def position(self, offset: int) -> Tuple[int, int]:
        """The line and the column of a byte, from 1; columns count characters."""
        line = self.line_of(offset)
        return line + 1, len(self.data[self.starts[line] : offset].decode("utf-8", "replace")) + 1

    def offset(self, line: int, column: int) -> int:
        """The byte of a line and a column, from 1."""
        start = self.starts[min(line, len(self.starts)) - 1]
        return start + len(self.data[start:].decode("utf-8", "replace")[: column - 1].encode("utf-8"))


@dataclass(frozen=True)
class Hole:
    """A place of a template that the program fills: `${..}`."""

    start: int
    """The byte of the file where it begins."""
    end: int
    text_offset: int
    """The byte of the text in whose place it is."""


@dataclass
class Source:
    """A text of GraphQL: all of a file, or a part of a program."""

    file: File
    text: bytes
    anchors: Tuple[Tuple[int, int], ...] = ((0, 0),)
    """From which byte of the text on its bytes are those of the file from which byte on."""
    holes: Tuple[Hole, ...] = ()
    definitions: Optional[List[Definition]] = None
    """Its operations and fragments; None where it can't be cut into them."""
    inside: Tuple[Hole, ...] = field(default=())
    """The holes in definitions: the text that the program makes is not known."""

    def __post_init__(self) -> None:
        self.definitions = definitions(self.text)
        self.inside = tuple(hole for hole in self.holes if not self._is_between(hole))

    def _is_between(self, hole: Hole) -> bool:
        """Whether a hole is between definitions, where a program can fill in whole ones alone."""
        return self.definitions is not None and not any(it.start <= hole.text_offset < it.end for it in self.definitions)

    def in_file(self, offset: int) -> int:
        """The byte of the file for one of the text."""
        index = bisect.bisect_right(self.anchors, (offset, 1 << 62)) - 1
        start, at = self.anchors[max(index, 0)]
        return at + offset - start

    def in_text(self, offset: int) -> Optional[int]:
        """The byte of the text for one of the file, if it has it."""
        for index in range(len(self.anchors) - 1, -1, -1):
            start, at = self.anchors[index]
            if at <= offset:
                found = start + offset - at
                after = self.anchors[index + 1][0] if index + 1 < len(self.anchors) else len(self.text)
                return found if found <= after else None
        return None


def read(path: str, told: str) -> File:
    """The file at a path. Raises OSError where it can't be read."""
    with open(path, "rb") as file:
        return File(told, file.read())


def is_program(path: str) -> bool:
    """Whether a file is a program, which may have texts of schemas and documents both."""
    return path.endswith(JAVASCRIPT + PYTHON)


def is_utf8(data: bytes) -> bool:
    """Whether bytes are UTF-8."""
    try:
        data.decode("utf-8")
        return True
    except UnicodeDecodeError:
        return False


def sources(file: File, *, schema: bool = False) -> List[Source]:
    """The texts of a file: documents, or those of a schema. A file that is no program is one text."""
    if not is_program(file.path):
        return [Source(file, file.data)]
    from .embedded import embedded

    return [it for it in embedded(file, file.path.endswith(PYTHON)) if is_type_system(it.text) == schema]


Overlays = Dict[str, bytes]
"""The texts of an editor that are not written to their files yet, by real path."""
