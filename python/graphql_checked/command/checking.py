"""The documents of a project, read and checked, with processes side by side where there are many."""

import multiprocessing
import os
import re
import sys
from concurrent.futures import ProcessPoolExecutor
from dataclasses import dataclass, field
from typing import Any, Callable, Dict, Iterable, List, Optional, Sequence, Set, Tuple

from .. import NotUtf8Error, StackError
from . import globs
from .config import Project
from .failures import MEMORY, UNREAD, WRONG_WORDS, Stop
from .findings import DOCUMENT, Finding, PartsMap, excerpt, findings, once, place_in
from .schemas import Held, told_path
from .sources import JAVASCRIPT, PYTHON, TEXTS, File, Source, is_program, is_utf8, read, sources
from .units import Project as Definitions
from .units import Unit

FEW = 100
"""So many texts are checked by one process."""
TEMPLATE = "Template"
FRAGMENT = re.compile(rb"\bfragment\s+(\w+)\s+on\b")


@dataclass
class Found:
    """What is found in the documents of a project."""

    documents: int = 0
    """How many texts were checked."""
    findings: List[Finding] = field(default_factory=list)
    unread: List[str] = field(default_factory=list)
    """What is told of files that cannot be read."""


def document_paths(project: Project, held: Held) -> List[str]:
    """The files of a project's documents, from its root; without its schema's and those that it excludes. A pattern that has no file
    is told, and is a failure if none has one."""
    names, unmet = globs.found(project.root, project.documents, TEXTS + JAVASCRIPT + PYTHON)
    words = [globs.unmet_words(it, "document", told_path(project.root, ".")) for it in unmet]
    for status, it in words:
        if not names or status == UNREAD:
            raise Stop(status, it)
        print(f"graphql-check: {it}", file=sys.stderr)
    left = {it for it in held.paths if not is_program(it)}
    return [it for it in names if told_path(project.root, it) not in left and not globs.matches(it, project.exclude)]


def scanned(pair: Tuple[str, str]) -> Tuple[Optional[str], List[Source]]:
    """The texts of a file, or why there are none."""
    real, told = pair
    try:
        file = read(real, told)
    except OSError as error:
        return f"{told}: {error.strerror}", []
    return texts_in(file)


def texts_in(file: File) -> Tuple[Optional[str], List[Source]]:
    """The texts of a file that is read."""
    if not is_utf8(file.data):
        return f"{file.path}: is not UTF-8", []
    return None, sources(file)


_states: List[Any] = []


def state() -> Any:
    """What the work of `side_by_side` is given."""
    return _states[-1]


def processors() -> int:
    """How many processors this process may use."""
    return len(os.sched_getaffinity(0)) if hasattr(os, "sched_getaffinity") else os.cpu_count() or 1


def side_by_side(work: Callable[[Any], Any], items: Sequence[Any], given: Any = None, most: int = 0) -> List[Any]:
    """What the work makes of each item, in order. Where there are many, processes do it side by side, so many at most; they are
    forked, so that they have the schema and all texts."""
    count = min(most or processors(), -(-len(items) // FEW))
    _states.append(given)
    try:
        if count < 2 or "fork" not in multiprocessing.get_all_start_methods():
            return [work(it) for it in items]
        with ProcessPoolExecutor(count, mp_context=multiprocessing.get_context("fork")) as pool:
            return list(pool.map(work, items, chunksize=max(1, len(items) // (count * 4))))
    finally:
        _states.pop()


@dataclass
class Documents:
    """The texts of a project over its schema."""

    of_project: Project
    project: Definitions
    held: Held
    unread: List[str] = field(default_factory=list)
    most: int = 0
    """How many processes check side by side at most; 0 for all processors."""

    @staticmethod
    def of(project: Project, held: Held) -> "Documents":
        """The documents in a project's files."""
        pairs = [(os.path.join(project.root, it), told_path(project.root, it)) for it in document_paths(project, held)]
        read_files = side_by_side(scanned, pairs)
        unread = [words for words, _ in read_files if words]
        return Documents(project, Definitions([source for _, found in read_files for source in found]), held, unread)

    @property
    def sources(self) -> Sequence[Source]:
        """The texts."""
        return self.project.sources

    def check(self, unit: Unit) -> List[Finding]:
        """What is wrong with a unit."""
        if self.project.is_filled(unit):
            return []
        text, parts = self.project.text(unit)
        schema = self.held.schema
        assert schema
        try:
            report = schema.check(text, path=DOCUMENT)
        except MemoryError:
            raise Stop(MEMORY, "out of memory") from None
        except (StackError, NotUtf8Error) as error:
            raise Stop(WRONG_WORDS, f"{error}: lower --nesting") from None
        return findings(report, PartsMap(parts, self.held.texts, text)) if not report else []

    def templates(self, numbers: Iterable[int]) -> List[Finding]:
        """The places at which a program fills a definition, so that it is not checked."""
        found = []
        for source in (self.sources[it] for it in numbers):
            for hole in source.inside:
                words = "a program fills this place, so that the text is not known and not checked"
                shown = excerpt(source.file, hole.start, hole.end)
                hint = "write a fragment, or a variable: whole fragments alone may be filled in, between definitions"
                found.append(Finding(place_in(source.file, hole.start, hole.end), TEMPLATE, words, hint, (), {}, "error", shown))
        return found

    def without_echoes(self, found: List[Finding]) -> List[Finding]:
        """The findings without those that a fragment is missing which is in a text that is refused, since it can't be read."""
        refused = {it.place.path for it in found}
        unread = [it.text for it in self.sources if it.definitions is None and it.file.path in refused]
        names = {name.decode() for text in unread for name in FRAGMENT.findall(text)}
        return [it for it in found if it.rule != "UndefinedFragment" or it.fields.get("name") not in names]

    def found(self, chosen: Optional[Set[int]] = None) -> Found:
        """What is found in the units that have a part of these sources, or else in all."""
        units = [it for it in self.project.units() if chosen is None or it.sources & chosen]
        documents = set(range(len(self.sources))) if chosen is None else chosen
        lists = side_by_side(_checked, units, self, self.most)
        found = [finding for it in lists for finding in it] + self.templates(documents.union(*(it.sources for it in units)))
        return Found(len(documents), once(self.without_echoes(found)), self.unread)


def _checked(unit: Unit) -> List[Finding]:
    documents: Documents = state()
    return documents.check(unit)


def by_path(found: Iterable[Finding]) -> Dict[str, List[Finding]]:
    """The findings of each path."""
    lists: Dict[str, List[Finding]] = {}
    for it in found:
        lists.setdefault(it.place.path, []).append(it)
    return lists
