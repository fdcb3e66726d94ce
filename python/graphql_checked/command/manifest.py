"""`graphql-check manifest`: the operations of a project as trusted documents, for a server that takes no other.

Each has the SHA-256 of its text, its name, its kind, and its canonical text with just the fragments that it reaches."""

import argparse
import hashlib
import json
import sys
from dataclasses import dataclass
from typing import Any, Dict, List, Sequence, Tuple

from .. import NESTING, NotUtf8Error, RefusedError, StackError
from . import check, words
from .checking import Documents, side_by_side, state
from .failures import ACCEPTED, MEMORY, REFUSED, UNREAD, WRONG_WORDS, Stop, counted
from .findings import Finding, Noted, place_in
from .schemas import hold, load
from .typenames import with_typenames
from .units import Node

FORMS = ("apollo", "relay")
RULE = "Manifest"


@dataclass(frozen=True)
class Trusted:
    """An operation, with its canonical text."""

    name: str
    kind: str
    text: str

    @property
    def id(self) -> str:
        """The SHA-256 of the text, in hexadecimal."""
        return hashlib.sha256(self.text.encode("utf-8")).hexdigest()


def add(reader: argparse.ArgumentParser) -> None:
    """Adds the words of the command."""
    reader.add_argument("--form", choices=FORMS, default="apollo", help="apollo: a list under `operations`; relay: texts under their ids (apollo)")
    reader.add_argument("--typename", action="store_true", help="adds `__typename` where Apollo Client adds it to what it sends")
    reader.add_argument("--output", metavar="FILE", help="writes it there; else it is printed")
    reader.add_argument("--check", metavar="FILE", help="compares with a stored one, of either form")
    words.add(reader)


def own_text(documents: Documents, node: Node) -> bytes:
    """An operation with the fragments that it reaches, in the order of their names."""
    project = documents.project
    reached = sorted(project.reached([node]) - {node}, key=lambda it: (project.definition(it).name, it))
    cut = [(project.sources[it[0]].text, project.definition(it)) for it in [node, *reached]]
    return b"\n".join(text[it.start : it.end] for text, it in cut)


def _trusted(asked: Tuple[Node, bool]) -> Trusted:
    """The operation of a node, with `__typename` or without."""
    (node, has_typenames), documents = asked, state()
    text = own_text(documents, node)
    definition, schema = documents.project.definition(node), documents.held.schema
    assert schema
    try:
        return Trusted(definition.name, definition.kind, schema.document_text(with_typenames(text) if has_typenames else text, None))
    except MemoryError:
        raise Stop(MEMORY, "out of memory") from None
    except (RefusedError, NotUtf8Error, StackError) as error:
        raise Stop(REFUSED, f"{definition.kind} {definition.name}: {error}") from None


def unnamed(documents: Documents) -> List[Finding]:
    """The operations that have no name, or that of another."""
    first: Dict[str, Node] = {}
    found = []
    for node in documents.project.operations:
        source, it = documents.sources[node[0]], documents.project.definition(node)
        place = place_in(source.file, source.in_file(it.start), source.in_file(it.end - 1) + 1)
        if not it.name:
            found.append(Finding(place, RULE, "an operation of a manifest has a name"))
        elif it.name in first:
            other, there = documents.sources[first[it.name][0]], documents.project.definition(first[it.name])
            noted = Noted(place_in(other.file, other.in_file(there.start), other.in_file(there.start)), "the other operation")
            found.append(Finding(place, RULE, f"two operations of a manifest are called `{it.name}`", None, (noted,)))
        first.setdefault(it.name, node)
    return found


def content(trusted: Sequence[Trusted], form: str) -> Any:
    """The manifest as an object: Apollo's sorted by names, Relay's by ids."""
    if form == "relay":
        return {it.id: it.text for it in sorted(trusted, key=lambda it: it.id)}
    listed = [{"id": it.id, "name": it.name, "type": it.kind, "body": it.text} for it in sorted(trusted, key=lambda it: it.name)]
    return {"format": "apollo-persisted-query-manifest", "version": 1, "operations": listed}


def texts(manifest: Any) -> Dict[str, str]:
    """The texts of a manifest of either form, under their ids. Raises ValueError for what is none."""
    if isinstance(manifest, dict) and isinstance(manifest.get("operations"), list):
        return {it["id"]: it["body"] for it in manifest["operations"]}
    if isinstance(manifest, dict) and all(isinstance(it, str) for it in manifest.values()):
        return dict(manifest)
    raise ValueError("it is neither Apollo's form nor Relay's")


def compared(trusted: Sequence[Trusted], path: str) -> int:
    """Tells how a stored manifest differs, and gives the status."""
    try:
        with open(path, encoding="utf-8") as file:
            stored = json.load(file)
        form = "apollo" if isinstance(stored, dict) and "operations" in stored else "relay"
        old = texts(stored)
    except (ValueError, KeyError, TypeError) as error:
        raise Stop(UNREAD, f"{path}: is no manifest: {error}") from None
    if stored == content(trusted, form):
        print(f"{path} has these {counted(len(trusted), 'operation')}", file=sys.stderr)
        return ACCEPTED
    new = {it.id: it.name for it in trusted}
    for name in sorted(new[it] for it in set(new) - set(old)):
        print(f"{path}: has not `{name}` as it is now")
    for it in sorted(set(old) - set(new)):
        print(f"{path}: has what is no more: {it[:12]} {' '.join(old[it].split())[:40]}")
    print(f"{path} is not the manifest of these documents: write it again", file=sys.stderr)
    return REFUSED


def written(trusted: Sequence[Trusted], given: argparse.Namespace) -> int:
    """Writes the manifest."""
    text = json.dumps(content(trusted, given.form), ensure_ascii=False, indent=2) + "\n"
    if given.output:
        with open(given.output, "w", encoding="utf-8", newline="\n") as file:
            file.write(text)
    else:
        sys.stdout.write(text)
    print(counted(len(trusted), "operation"), file=sys.stderr)
    return ACCEPTED


def run(given: argparse.Namespace) -> int:
    """Checks the documents, and writes or compares their manifest."""
    asked = words.asked(given)
    if len(asked.projects) > 1:
        raise Stop(WRONG_WORDS, "a manifest is of one project: name it by --project")
    (project,) = asked.projects
    held = hold(load(project), given.nesting or NESTING)
    if not held.schema:
        return check.tell([check.Outcome(project, held.findings, is_of_schema=True)], "text")
    with held.schema:
        documents = Documents.of(project, held)
        found = documents.found()
        faults = found.findings + unnamed(documents)
        if faults or found.unread:
            return check.tell([check.Outcome(project, faults, found.documents, found.unread)], "text")
        trusted = side_by_side(_trusted, [(it, given.typename) for it in documents.project.operations], documents)
    if not trusted:
        raise Stop(WRONG_WORDS, "there is no operation in these documents")
    return compared(trusted, given.check) if given.check else written(trusted, given)
