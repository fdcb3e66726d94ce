"""The forms in which findings are told: those of `graphql-report`."""

import json
import os
import re
import unicodedata
from typing import Any, Dict, Iterator, List, Sequence, Tuple

from .. import __version__
from .findings import Finding, Noted, Place

FORMS = ("text", "short", "json", "github", "sarif")
SAME = 5
"""How many findings of one rule, message and file are told in lines before the others are counted."""
TURNS = re.compile("[\u061c\u200e\u200f\u2028-\u202e\u2066-\u2069\x80-\x9f]")


def shown(text: str) -> str:
    """The text without what moves a terminal; a tab is four spaces."""
    text = text.replace("\t", "    ")
    text = re.sub(r"[\x00-\x1f]", lambda it: chr(0x2400 + ord(it.group())), text).replace("\x7f", "\u2421")
    return TURNS.sub("\ufffd", text)


def width(text: str) -> int:
    """How many columns of a terminal a text takes."""
    wide = lambda it: 0 if unicodedata.combining(it) else 2 if unicodedata.east_asian_width(it) in "WF" else 1
    return sum(map(wide, shown(text)))


def short(it: Finding) -> str:
    """A finding in a line."""
    return shown(f"{it.place}: {it.severity}[{it.rule}]: {it.message}")


def text(it: Finding) -> str:
    """A finding with its line, what belongs to it, and what may be meant."""
    lines = [short(it)]
    if it.excerpt:
        before, marked, after = it.excerpt
        lines.append(f"{it.place.line} | {shown(before + marked + after)}")
        lines.append(f"{' ' * len(str(it.place.line))} | {' ' * width(before)}{'^' * max(1, width(marked))}")
    lines += [shown(f"  = {noted.place}: {noted.words}") for noted in it.related]
    if it.hint:
        lines.append(shown(f"  = help: {it.hint}"))
    return "\n".join(lines)


def place_object(place: Place) -> Dict[str, Any]:
    """A place for JSON."""
    end = None if place.line is None else {"line": place.end_line, "column": place.end_column}
    return {"path": place.path, "line": place.line, "column": place.column, "end": end, "offset": place.offset, "length": place.length}


def json_line(it: Finding) -> str:
    """A finding as an object, with the members of `graphql-report --format json`."""
    related = [{"path": noted.place.path, "line": noted.place.line, "column": noted.place.column, "words": noted.words} for noted in it.related]
    told = {"severity": it.severity, "rule": it.rule, "message": it.message, "related": related, "hint": it.hint, "fields": dict(it.fields)}
    return json.dumps({**place_object(it.place), **told}, ensure_ascii=False, separators=(",", ":"))


def escaped(value: object, is_property: bool) -> str:
    """A value for a workflow command of GitHub."""
    found = str(value).replace("%", "%25").replace("\r", "%0D").replace("\n", "%0A")
    return found.replace(":", "%3A").replace(",", "%2C") if is_property else found


def in_checkout(path: str) -> str:
    """A path from the folder of a workflow's checkout, where GitHub looks for it; outside of one as it is told."""
    root = os.environ.get("GITHUB_WORKSPACE", "")
    found = os.path.relpath(path, root) if root and not path.startswith("<") else path
    return path if found.startswith("..") else found


def github(it: Finding) -> str:
    """A finding as a workflow command of GitHub: what belongs to it and what may be meant are lines of its message."""
    place = it.place
    where = {"file": in_checkout(place.path)}
    if place.line is not None:
        told = {"line": place.line, "endLine": place.end_line, "col": place.column, "endColumn": place.end_column}
        where.update({key: str(number) for key, number in told.items()})
    where["title"] = it.rule
    given = ",".join(f"{key}={escaped(value, True)}" for key, value in where.items())
    lines = [it.message, *(f"= {noted.place}: {noted.words}" for noted in it.related), *([f"= help: {it.hint}"] if it.hint else [])]
    return shown(f"::{it.severity} {given}::{'%0A'.join(escaped(line, False) for line in lines)}")


def sarif_place(place: Place) -> Dict[str, Any]:
    """A location of SARIF."""
    found: Dict[str, Any] = {"artifactLocation": {"uri": in_checkout(place.path)}}
    if place.line is not None:
        found["region"] = {"startLine": place.line, "startColumn": place.column}
        if place.end_line is not None:
            found["region"].update({"endLine": place.end_line, "endColumn": place.end_column})
    return {"physicalLocation": found}


def sarif_related(number: int, it: Noted) -> Dict[str, Any]:
    """A related location of SARIF."""
    return {"id": number, "message": {"text": it.words}, **sarif_place(it.place)}


def sarif(found: Sequence[Finding]) -> str:
    """All findings as a log of SARIF 2.1.0."""
    results = [
        {
            "ruleId": it.rule,
            "level": it.severity,
            "message": {"text": it.message + (f" ({it.hint})" if it.hint else "")},
            "locations": [sarif_place(it.place)],
            "relatedLocations": [sarif_related(number, noted) for number, noted in enumerate(it.related)],
        }
        for it in found
    ]
    driver = {"name": "graphql-check", "version": __version__, "rules": [{"id": it} for it in sorted({it.rule for it in found})]}
    schema = "https://json.schemastore.org/sarif-2.1.0.json"
    run = {"tool": {"driver": driver}, "columnKind": "unicodeCodePoints", "results": results}
    return json.dumps({"$schema": schema, "version": "2.1.0", "runs": [run]}, ensure_ascii=False, indent=2)


def grouped(found: Sequence[Finding]) -> Iterator[Tuple[Finding, int]]:
    """The findings to be told in lines: of one message in a file five, the fifth with the number of those left out."""
    counts: Dict[Tuple[str, str, str], List[Finding]] = {}
    for it in found:
        counts.setdefault((it.place.path, it.rule, it.message), []).append(it)
    for it in found:
        same = counts[(it.place.path, it.rule, it.message)]
        if it in same[:SAME]:
            yield it, len(same) - SAME if it is same[min(SAME, len(same)) - 1] else 0


def lines(found: Sequence[Finding], form: str) -> Iterator[str]:
    """The findings in a form, line by line."""
    if form == "sarif":
        yield sarif(found)
    elif form in ("json", "github"):
        yield from map({"json": json_line, "github": github}[form], found)
    else:
        for it, left in grouped(found):
            yield text(it) if form == "text" else short(it)
            if left > 0:
                yield f"and {left} more with this message of {it.rule}"
