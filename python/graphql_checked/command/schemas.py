"""Schemas: their texts from files, and the library's handle on them."""

import os
from dataclasses import dataclass, field
from typing import Dict, List, Mapping, Optional, Sequence, Set, Tuple

from .. import NESTING, NotUtf8Error, RefusedError, Schema, StackError
from . import globs, introspection, preludes
from .config import Project
from .failures import MEMORY, UNREAD, WRONG_WORDS, Stop
from .findings import Finding, PartsMap, findings
from .outline import definitions
from .sources import JAVASCRIPT, PYTHON, TEXTS, File, Source, is_utf8, read, sources
from .typesystem import Types


@dataclass
class SchemaText:
    """A text of a schema."""

    path: str
    """The path under which it is told."""
    text: bytes
    source: Optional[Source] = None
    """The text in its file; None for what is made: an introspection result's, a prelude's."""
    real: str = ""
    """The path of its file, from the root of the file system."""


@dataclass
class Held:
    """The texts of a schema, and the schema if it is accepted."""

    texts: List[SchemaText]
    findings: List[Finding] = field(default_factory=list)
    """Why it is refused."""
    schema: Optional[Schema] = None
    _types: Optional[Types] = None

    @property
    def paths(self) -> Set[str]:
        """The paths of the files, as they are told."""
        return {it.path for it in self.texts if it.real}

    @property
    def types(self) -> Types:
        """The types, for warnings and for an editor."""
        if self._types is None:
            self._types = Types.of([it.text for it in self.texts])
        return self._types

    def close(self) -> None:
        """Frees the schema."""
        if self.schema:
            self.schema.close()


def told_path(root: str, path: str) -> str:
    """A path of a project as it is told: from the current folder, if that is above it."""
    full = os.path.normpath(os.path.join(root, path))
    told = os.path.relpath(full)
    return full if told.startswith("..") and os.path.isabs(full) else told.replace(os.sep, "/")


def unread(path: str, error: Optional[OSError] = None) -> Stop:
    """That a file cannot be read."""
    return Stop(UNREAD, f"{path}: {error.strerror if error else 'is not UTF-8'}")


def file_of(root: str, path: str, overlays: Mapping[str, bytes]) -> Tuple[File, str]:
    """A file, or what an editor has of it, with its real path."""
    told, real = told_path(root, path), os.path.realpath(os.path.join(root, path))
    if real in overlays:
        return File(told, overlays[real]), real
    try:
        return read(real, told), real
    except OSError as error:
        raise unread(told, error) from None


def texts_of(file: File, real: str) -> List[SchemaText]:
    """The texts of a schema that a file has."""
    if not is_utf8(file.data):
        raise unread(file.path)
    if file.path.endswith(".json"):
        try:
            return [SchemaText(file.path, introspection.sdl(file.data), None, real)]
        except ValueError as error:
            raise Stop(UNREAD, f"{file.path}: is no introspection result: {error}") from None
    found = sources(file, schema=True)
    for it in found:
        if it.inside or it.holes:
            raise Stop(UNREAD, f"{file.path}: the program fills the text of a schema, so that it is not known: name an introspection result")
    return [SchemaText(file.path, it.text, it, real) for it in found]


def paths(project: Project) -> List[str]:
    """The files of a project's schema."""
    found: List[str] = []
    endings = TEXTS + (".json",) + JAVASCRIPT + PYTHON
    names, unmet = globs.found(project.root, project.schema, endings)
    if unmet:
        raise Stop(*globs.unmet_words(unmet[0], "schema file", told_path(project.root, ".")))
    return found + names


def load(project: Project, overlays: Optional[Dict[str, bytes]] = None) -> List[SchemaText]:
    """The texts of a project's schema, with its preludes last. What has operations and fragments alone is none of them, unless its
    file is named, so that schema and documents may have one pattern."""
    found: List[SchemaText] = []
    named = set(map(globs.normal, project.schema))
    for path in paths(project):
        texts = texts_of(*file_of(project.root, path, overlays or {}))
        found += texts if path in named else [it for it in texts if not definitions(it.text)]
    if not found:
        raise Stop(WRONG_WORDS, "no text of a schema is in these files")
    made = preludes.texts(project.preludes, [it.text for it in found])
    return found + [SchemaText(name, text) for name, text in made]


def hold(texts: Sequence[SchemaText], nesting: int = NESTING, max_faults: int = 0) -> Held:
    """The schema of these texts, or why it is refused."""
    held = Held(list(texts))
    try:
        held.schema = Schema([it.text for it in texts], paths=[str(number) for number in range(len(texts))], nesting=nesting, max_faults=max_faults)
    except RefusedError as refused:
        held.findings = findings(refused.report, PartsMap([], held.texts))
    except NotUtf8Error as error:
        raise Stop(UNREAD, str(error)) from None
    except StackError as error:
        raise Stop(WRONG_WORDS, f"{error}: lower --nesting") from None
    except MemoryError:
        raise Stop(MEMORY, "out of memory") from None
    return held
