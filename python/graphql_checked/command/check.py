"""`graphql-check check`: tells what is wrong with the schemas and documents of a repository."""

import argparse
import os
import sys
from dataclasses import dataclass, field
from typing import List, Optional, Set

from .. import NESTING
from . import changes, words
from .checking import Documents
from .config import Project
from .failures import ACCEPTED, REFUSED, UNREAD, WRONG_WORDS, Stop, counted
from .findings import Finding
from .forms import lines
from .schemas import hold, load, told_path
from .deprecated import deprecated


@dataclass
class Outcome:
    """What is found in a project."""

    project: Project
    findings: List[Finding] = field(default_factory=list)
    documents: int = 0
    unread: List[str] = field(default_factory=list)
    is_of_schema: bool = False
    """Whether the schema is refused, or is all that was checked."""
    named: int = 0
    """How many of the documents that were named it has."""

    @property
    def faults(self) -> List[Finding]:
        """What is wrong."""
        return [it for it in self.findings if it.severity == "error"]

    def summary(self) -> str:
        """How much was found, in the words of `graphql-report`."""
        faults = len(self.faults)
        refused = len({it.place.path for it in self.faults})
        told = f"{counted(faults, 'fault')} in {counted(refused, 'file')}, {counted(self.documents, 'document')} checked"
        if self.is_of_schema:
            told = f"{counted(faults, 'fault')} in the schema" if faults else "schema accepted"
        elif not faults:
            told = f"{counted(self.documents, 'document')} accepted"
        warnings = len(self.findings) - faults
        told += f", {counted(warnings, 'warning')}" if warnings else ""
        told += f", {counted(len(self.unread), 'file')} not read" if self.unread else ""
        return f"{self.project.name}: {told}" if self.project.name else told


def add(reader: argparse.ArgumentParser) -> None:
    """Adds the words of the command."""
    from .forms import FORMS

    reader.add_argument("--format", choices=FORMS, default="text", help="how findings are told (text)")
    reader.add_argument("--since", metavar="REVISION", help="checks documents with a part that changed since a revision of git; all where the schema did")
    reader.add_argument("--max-faults", type=int, default=0, metavar="N", help="how many faults are told of a document at most")
    warnings = reader.add_mutually_exclusive_group()
    warnings.add_argument("--no-warnings", action="store_true", help="tells nothing of uses of what is deprecated")
    warnings.add_argument("--deny", choices=("warnings",), help="the status is 1 if there is a warning")
    words.add(reader)


def _chosen(given: argparse.Namespace, asked: words.Asked, documents: Documents) -> Optional[Set[int]]:
    """The numbers of the texts to be checked; None for all."""
    project = documents.of_project
    named = asked.named(documents.held.paths, documents.sources)
    if not given.since:
        return named
    changed = changes.changed(project.root, given.since)
    of_schema = {it.real for it in documents.held.texts if it.real}
    if changed & of_schema or (asked.path and os.path.realpath(asked.path) in changed):
        return named
    found = {number for number, it in enumerate(documents.sources) if os.path.realpath(it.file.path) in changed}
    found |= documents.project.unmet()  # of a fragment that was renamed or removed
    return found if named is None else found & named


def outcome(given: argparse.Namespace, asked: words.Asked, project: Project) -> Outcome:
    """What is found in a project."""
    held = hold(load(project), given.nesting or NESTING, given.max_faults)
    if not held.schema:
        return Outcome(project, held.findings, is_of_schema=True, named=1)
    if not project.documents:
        return Outcome(project, is_of_schema=True)
    with held.schema:
        documents = Documents.of(project, held)
        chosen = _chosen(given, asked, documents)
        found = documents.found(chosen)
        refused = {it.place.path for it in found.findings}  # of which the faults alone are told
        warned = [] if given.no_warnings else [it for it in deprecated(documents, chosen) if it.place.path not in refused]
    if not documents.sources and not documents.unread:
        raise Stop(WRONG_WORDS, f"no text of GraphQL is in the documents of {project.name or 'the configuration'}: nothing was checked")
    findings = sorted(found.findings + warned, key=lambda it: it.order)
    return Outcome(project, findings, found.documents, found.unread, named=1 if chosen is None else len(chosen))


def tell(outcomes: List[Outcome], form: str, denies: bool = False) -> int:
    """Tells what was found, and gives the status, for which warnings may count as faults."""
    found = [it for one in outcomes for it in one.findings]
    refused = any(denies or it.severity == "error" for it in found)
    try:
        for line in lines(found, form):
            print(line)
        sys.stdout.flush()
    except BrokenPipeError:
        os.dup2(os.open(os.devnull, os.O_WRONLY), sys.stdout.fileno())
        return REFUSED if refused else UNREAD
    unread = [it for one in outcomes for it in one.unread]
    for line in unread + [it.summary() for it in outcomes]:
        print(line, file=sys.stderr)
    return UNREAD if unread else REFUSED if refused else ACCEPTED


def run(given: argparse.Namespace) -> int:
    """Checks what is asked for, tells it, and gives the status."""
    asked = words.asked(given)
    outcomes = [outcome(given, asked, it) for it in asked.projects]
    if asked.documents and not any(it.named for it in outcomes):
        raise Stop(WRONG_WORDS, f"`{asked.documents[0]}` is no document of {told_path('.', asked.path or '.')}")
    return tell(outcomes, given.format, given.deny == "warnings")
