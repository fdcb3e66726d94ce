"""What is checked as one document: the operations of a text, with the fragments that they reach in all texts of the project.

So a fragment may be in another file than its use, and each definition is judged where it is sent: with the operations that reach it.
A fragment that no operation of the project reaches is judged with its own text."""

from dataclasses import dataclass
from typing import Dict, Iterable, List, Optional, Sequence, Set, Tuple

from .findings import Part
from .outline import Definition
from .sources import Source

Node = Tuple[int, int]
"""The numbers of a source and of a definition in it."""


@dataclass(frozen=True)
class Unit:
    """What is checked as one document."""

    source: int
    """The number of the source whose operations it has."""
    left_out: Tuple[int, ...]
    """The definitions of the source that other units have."""
    added: Tuple[Node, ...]
    """The fragments of other sources."""

    @property
    def sources(self) -> Set[int]:
        """The sources that it has a part of."""
        return {self.source, *(it[0] for it in self.added)}


class Project:
    """The definitions of all sources."""

    def __init__(self, sources: Sequence[Source]) -> None:
        self.sources = sources
        self.fragments: Dict[str, List[Node]] = {}
        self.operations: List[Node] = []
        self._units: Optional[List[Unit]] = None
        for number, source in enumerate(sources):
            for index, it in enumerate(source.definitions or ()):
                if it.is_fragment:
                    self.fragments.setdefault(it.name, []).append((number, index))
                else:
                    self.operations.append((number, index))

    def definition(self, node: Node) -> Definition:
        """The definition of a node."""
        return (self.sources[node[0]].definitions or [])[node[1]]

    def named(self, name: str, source: int) -> List[Node]:
        """The fragments that a spread in a source means: its own, or else all of this name, so that the library tells of two."""
        found = self.fragments.get(name, [])
        return [it for it in found if it[0] == source] or found

    def reached(self, nodes: Iterable[Node]) -> Set[Node]:
        """The definitions, and the fragments that they reach."""
        left = list(nodes)
        found = set(left)
        while left:
            node = left.pop()
            for name in self.definition(node).spreads:
                new = [it for it in self.named(name, node[0]) if it not in found]
                found.update(new)
                left += new
        return found

    def unmet(self) -> Set[int]:
        """The sources that spread a fragment that no source has."""
        spreads = ((number, name) for number, it in enumerate(self.sources) for of in it.definitions or () for name in of.spreads)
        return {number for number, name in spreads if name not in self.fragments}

    def units(self) -> List[Unit]:
        """What is checked, in the order of sources; one of each source but where others have all of it."""
        if self._units is None:
            self._units = self._made_units()
        return self._units

    def _made_units(self) -> List[Unit]:
        everywhere = self.reached(self.operations)
        found = []
        for number, source in enumerate(self.sources):
            own = [(number, index) for index in range(len(source.definitions or ()))]
            first = [it for it in own if not self.definition(it).is_fragment or it not in everywhere]
            if own and not first:
                continue
            reached = self.reached(first)
            left_out = tuple(index for node, index in zip(own, range(len(own))) if node not in reached)
            added = sorted(it for it in reached if it[0] != number)
            found.append(Unit(number, left_out, tuple(added)))
        return found

    def text(self, unit: Unit) -> Tuple[bytes, List[Part]]:
        """The text of a unit, and the parts that it has of sources. What is left out is blank."""
        source = self.sources[unit.source]
        text = bytearray(source.text)
        for index in unit.left_out:
            it = (source.definitions or [])[index]
            text[it.start : it.end] = bytes(byte if byte in b"\r\n" else 32 for byte in text[it.start : it.end])
        parts = [Part(0, source, 0)]
        for node in unit.added:
            other, it = self.sources[node[0]], self.definition(node)
            text += b"\n"
            parts.append(Part(len(text), other, it.start))
            text += other.text[it.start : it.end]
        return bytes(text), parts

    def is_filled(self, unit: Unit) -> bool:
        """Whether a part of a unit is filled by a program, so that its text is not known."""
        return any(self.sources[it].inside for it in unit.sources)
