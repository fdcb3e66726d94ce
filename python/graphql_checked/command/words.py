"""What a call asks for: the projects of the words or of the configuration."""

import argparse
import os
from dataclasses import dataclass, replace
from typing import List, Optional, Sequence, Set

from . import config, globs
from .config import Project
from .failures import WRONG_WORDS, Stop
from .schemas import told_path
from .sources import JAVASCRIPT, PYTHON, TEXTS, Source


@dataclass
class Asked:
    """The projects of a call, and the documents among theirs that are named."""

    projects: List[Project]
    path: Optional[str] = None
    """The file of the configuration."""
    documents: Sequence[str] = ()
    """Of a configuration's documents those that are named; all for none."""

    def named(self, schema: Set[str], sources: Sequence[Source]) -> Optional[Set[int]]:
        """The numbers of the sources that are named; None for all, as where a file of the schema is named."""
        if not self.documents:
            return None
        wanted = set(chosen_paths(self.documents))
        if wanted & schema:
            return None
        return {number for number, it in enumerate(sources) if it.file.path in wanted}


def chosen_paths(words: Sequence[str]) -> List[str]:
    """The paths of words, which may be patterns and folders."""
    found, unmet = globs.found(".", words, TEXTS + JAVASCRIPT + PYTHON)
    if unmet:
        raise Stop(*globs.unmet_words(unmet[0], "file", "."))
    return [told_path(".", it) for it in found]


def add(reader: argparse.ArgumentParser) -> None:
    """Adds the words that choose schema and documents."""
    reader.add_argument("--schema", action="append", default=[], metavar="FILE", help="a file of the schema, or a pattern; then no configuration is read")
    reader.add_argument("--prelude", action="append", default=[], metavar="NAME", help="adds a prelude to the schema: federation, appsync or relay")
    reader.add_argument("--exclude", action="append", default=[], metavar="PATTERN", help="leaves documents out")
    reader.add_argument("--config", metavar="FILE", help="the configuration; else the nearest .graphqlrc.yml or the like, here or above")
    reader.add_argument("--project", action="append", default=[], metavar="NAME", help="a project of the configuration; else all")
    reader.add_argument("--nesting", type=int, default=0, metavar="N", help="how many brackets may be open at once")
    reader.add_argument("documents", nargs="*", metavar="DOCUMENT", help="files, patterns or folders of documents; of a configuration those to be checked")


def _configured(given: argparse.Namespace) -> config.Config:
    """The configuration that is named, or the nearest."""
    if given.config and not os.path.isfile(given.config):
        raise Stop(*globs.unmet_words(given.config, "file", "."))
    found = config.read(given.config) if given.config else config.nearest(".")
    if not found:
        raise Stop(WRONG_WORDS, "there is no .graphqlrc.yml here or above: write one with `schema: schema.graphql` and `documents: src/**/*`, or name --schema")
    return found


def asked(given: argparse.Namespace) -> Asked:
    """What the words ask for."""
    if given.schema:
        if given.project or given.config:
            raise Stop(WRONG_WORDS, "--schema stands for a configuration: leave --config and --project out")
        return Asked([Project(".", given.schema, given.documents, given.exclude, given.prelude)])
    found = _configured(given)
    unknown = set(given.project) - {it.name for it in found.projects}
    if unknown:
        names = ", ".join(it.name or "" for it in found.projects)
        raise Stop(WRONG_WORDS, f"{told_path('.', found.path)}: there is no project `{sorted(unknown)[0]}`; there are: {names}")
    projects = [it for it in found.projects if not given.project or it.name in given.project]
    more = [replace(it, exclude=[*it.exclude, *given.exclude], preludes=[*it.preludes, *given.prelude]) for it in projects]
    return Asked(more, found.path, given.documents)
