"""The projects of a configuration as an editor has them: with texts that are not written to their files yet."""

import os
from dataclasses import dataclass, field
from typing import Dict, Iterator, List, Optional, Set, Tuple

from . import config, globs
from .checking import Documents, document_paths, texts_in
from .config import Project
from .failures import Stop
from .findings import Finding
from .schemas import Held, file_of, hold, load
from .sources import Overlays, Source, is_program
from .units import Project as Definitions


@dataclass
class Open:
    """A project with its schema and its documents."""

    project: Project
    held: Held
    schema_paths: Set[str]
    """The real paths of its schema's files."""
    texts: Dict[str, List[Source]] = field(default_factory=dict)
    """The texts of each document's file, by real path."""
    _documents: Optional[Documents] = None

    @property
    def documents(self) -> Documents:
        """All its documents."""
        if self._documents is None:
            self._documents = Documents(self.project, Definitions([it for found in self.texts.values() for it in found]), self.held, most=1)
        return self._documents

    def has(self, path: str) -> bool:
        """Whether a real path is that of one of its documents, also before the file is there."""
        if path in self.schema_paths and not is_program(path):
            return False
        relative = os.path.relpath(path, os.path.realpath(self.project.root)).replace(os.sep, "/")
        return globs.chooses(relative, self.project.documents) and not globs.matches(relative, self.project.exclude)

    def set(self, path: str, overlays: Overlays) -> None:
        """Reads a document's file again."""
        relative = os.path.relpath(path, os.path.realpath(self.project.root))
        self.texts[path] = texts_in(file_of(self.project.root, relative, overlays)[0])[1]
        self._documents = None

    def findings(self, path: str) -> List[Finding]:
        """What is wrong in a document's file."""
        if not self.held.schema:
            return []
        sources = self.documents.sources
        chosen = {number for number, it in enumerate(sources) if any(it is other for other in self.texts.get(path, []))}
        told = {it.file.path for it in self.texts.get(path, [])}
        return [it for it in self.documents.found(chosen).findings if it.place.path in told]


def opened(project: Project, overlays: Overlays) -> Open:
    """A project, read."""
    held = hold(load(project, overlays))
    found = Open(project, held, {it.real for it in held.texts if it.real})
    names = document_paths(project, held) if project.documents else []
    written = [os.path.realpath(os.path.join(project.root, it)) for it in names]
    for path in written + [it for it in overlays if it not in written and found.has(it)]:
        try:
            found.set(path, overlays)
        except Stop:
            continue
    return found


class Workspace:
    """The projects of the configuration of a folder."""

    def __init__(self, folder: str, path: Optional[str] = None) -> None:
        self.folder, self.path = folder, path
        self.overlays: Overlays = {}
        self.projects: List[Open] = []
        self.wrong: List[str] = []
        """Why a project cannot be read."""

    def read(self) -> None:
        """Reads all again."""
        globs.forget()
        for it in self.projects:
            it.held.close()
        self.projects, self.wrong = [], []
        try:
            found = config.read(self.path) if self.path else config.nearest(self.folder)
        except Stop as stop:
            self.wrong.append(str(stop))
            return
        if not found:
            self.wrong.append(f"no .graphqlrc.yml is in {self.folder} or above")
        for project in found.projects if found else []:
            try:
                self.projects.append(opened(project, self.overlays))
            except Stop as stop:
                self.wrong.append(str(stop))

    def change(self, path: str, text: Optional[bytes]) -> None:
        """Takes the text that an editor has of a file, or None where it has none any more."""
        if text is None:
            self.overlays.pop(path, None)
        else:
            self.overlays[path] = text
        for number, it in enumerate(self.projects):
            if path in it.schema_paths:
                it.held.close()
                it = self.projects[number] = Open(it.project, self._held(it), it.schema_paths, it.texts)
            if it.has(path):
                try:
                    it.set(path, self.overlays)
                except Stop:
                    it.texts.pop(path, None)

    def _held(self, it: Open) -> Held:
        """The schema of a project, read again."""
        try:
            return hold(load(it.project, self.overlays))
        except Stop as stop:
            self.wrong.append(str(stop))
            return Held([])

    def of(self, path: str) -> Iterator[Open]:
        """The projects that have a file, of their schema or of their documents."""
        return (it for it in self.projects if path in it.schema_paths or it.has(path))

    def source_at(self, path: str, offset: int) -> Optional[Tuple[Open, Source, int]]:
        """The document's text that has a byte of a file, and the byte of the text."""
        for it in self.projects:
            for source in it.texts.get(path, []):
                at = source.in_text(offset)
                if at is not None and source.anchors[0][1] <= offset:
                    return it, source, at
        return None

    def findings(self) -> Dict[str, List[Finding]]:
        """What is wrong in the files that are open, and in those of schemas; by real path."""
        found: Dict[str, List[Finding]] = {path: [] for path in self.overlays}
        for it in self.projects:
            for path in self.overlays:
                if it.has(path):
                    found[path] += it.findings(path)
            for path in it.schema_paths:
                found.setdefault(path, [])
            for finding in it.held.findings:
                path = os.path.realpath(finding.place.path)
                found.setdefault(path, []).append(finding)
        return found
