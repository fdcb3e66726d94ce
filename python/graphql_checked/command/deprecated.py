"""Uses of what is deprecated: those that `graphql-report` tells, under its names."""

import re
from typing import Iterator, List, Optional, Set, Tuple

from .checking import Documents, side_by_side, state
from .findings import Finding, excerpt, place_in
from .sources import Source
from .typesystem import Member, Types
from .uses import Use, uses

RULES = {"field": "DeprecatedField", "argument": "DeprecatedArgument", "input field": "DeprecatedInputField", "value": "DeprecatedEnumValue"}
"""The names of the warnings, by kinds of uses."""


def _members(types: Types) -> Iterator[Member]:
    """The fields, arguments and values of a schema."""
    for definitions in types.types.values():
        for _, it in definitions:
            for member in it.members:
                yield member
                yield from member.arguments
    for _, directive in types.directives.values():
        yield from directive.arguments


def _warning(source: Source, use: Use, member: Member) -> Finding:
    """The warning of a use."""
    start, end = source.in_file(use.start), source.in_file(use.end - 1) + 1
    words, fields = f"`{use.coordinate}` is deprecated: {member.reason}", {"coordinate": use.coordinate, "reason": member.reason}
    return Finding(place_in(source.file, start, end), RULES[use.kind], words, None, (), fields, "warning", excerpt(source.file, start, end))


def _warned(pair: Tuple[int, bytes]) -> List[Finding]:
    """The warnings of a source that has one of the names."""
    documents: Documents = state()
    source = documents.sources[pair[0]]
    if not re.search(pair[1], source.text):
        return []
    try:
        used = uses(source.text, documents.held.types)
    except RecursionError:  # too deep, which the library tells
        return []
    return [_warning(source, it, it.member) for it in used if it.kind in RULES and it.member and "deprecated" in it.member.directives]


def deprecated(documents: Documents, chosen: Optional[Set[int]]) -> List[Finding]:
    """A warning for each use of a deprecated field, argument, input field or enum value."""
    if not any(b"deprecated" in it.text for it in documents.held.texts):
        return []
    names = sorted({it.name for it in _members(documents.held.types) if "deprecated" in it.directives})
    if not names:
        return []
    pattern = rb"\b(?:" + "|".join(names).encode() + rb")\b"
    numbers = [it for it in range(len(documents.sources)) if chosen is None or it in chosen]
    return [it for found in side_by_side(_warned, [(number, pattern) for number in numbers], documents) for it in found]
