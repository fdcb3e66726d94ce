"""The configuration of a repository, in the form of graphql-config: `schema`, `documents`, `exclude`, `projects`, `extensions`."""

import json
import os
import re
from dataclasses import dataclass, field
from typing import Any, Dict, List, Mapping, Match, Optional, Sequence

from .failures import WRONG_WORDS, Stop

NAMES = (
    ".graphqlrc",
    ".graphqlrc.yml",
    ".graphqlrc.yaml",
    ".graphqlrc.json",
    ".graphqlrc.toml",
    "graphql.config.yml",
    "graphql.config.yaml",
    "graphql.config.json",
    "graphql.config.toml",
    "package.json",
)
PROGRAMS = tuple(f"{stem}.{ending}" for stem in (".graphqlrc", "graphql.config") for ending in ("js", "ts", "cjs", "mjs"))
EXTENSION = "graphql-check"


@dataclass(frozen=True)
class Project:
    """A schema, and the documents over it."""

    root: str
    """The folder from which its paths are."""
    schema: Sequence[str]
    """Patterns of its schema texts."""
    documents: Sequence[str] = ()
    exclude: Sequence[str] = ()
    preludes: Sequence[str] = ()
    name: Optional[str] = None


@dataclass(frozen=True)
class Config:
    """Where a configuration is, and its projects."""

    path: str
    projects: List[Project] = field(default_factory=list)


def _wrong(path: str, words: str) -> Stop:
    return Stop(WRONG_WORDS, f"{path}: {words}")


def _parsed(path: str, text: str) -> Any:
    """What a file of configuration says."""
    if path.endswith(".json"):
        return json.loads(text)
    if path.endswith(".toml"):
        try:
            import tomllib
        except ImportError:
            raise _wrong(path, "TOML is read by Python 3.11 or later: write it as .graphqlrc.json") from None
        return tomllib.loads(text)
    if text.lstrip().startswith("{"):
        return json.loads(text)
    try:
        import yaml  # type: ignore[import]
    except ImportError:
        raise _wrong(path, "PyYAML (python3-yaml) reads it, and is not there: install it, or write .graphqlrc.json") from None
    try:
        return yaml.safe_load(text)
    except yaml.YAMLError as error:
        raise _wrong(path, f"is not YAML: {error}") from None


def _filled(found: Match[str]) -> str:
    """A variable of the environment, or else its default."""
    return os.environ.get(found.group(1), (found.group(2) or "").strip("\"'"))


def _with_environment(value: Any) -> Any:
    """The value with `${NAME}` and `${NAME:default}` filled from the environment, as graphql-config does it."""
    if isinstance(value, str):
        return re.sub(r"\$\{(\w+)(?::([^}]*))?\}", _filled, value)
    if isinstance(value, list):
        return [_with_environment(it) for it in value]
    if isinstance(value, dict):
        return {key: _with_environment(it) for key, it in value.items()}
    return value


def _patterns(path: str, key: str, value: Any) -> List[str]:
    """A pattern or a list of them."""
    values = value if isinstance(value, list) else [] if value is None else [value]
    for it in values:
        if isinstance(it, dict) or isinstance(it, str) and re.match(r"https?://", it):
            raise _wrong(path, f"`{key}` names a server: this reads files alone, so save its introspection result as a .json file")
        if not isinstance(it, str):
            raise _wrong(path, f"`{key}` is to be a path or a list of paths")
    return values


def _project(path: str, value: Any, name: Optional[str]) -> Project:
    """The project of an object, or of the paths of a schema alone."""
    told = value if isinstance(value, Mapping) else {"schema": value}
    if "schema" not in told:
        raise _wrong(path, f"{f'project `{name}`' if name else 'it'} has no `schema`")
    extensions = told.get("extensions") or {}
    own = extensions.get(EXTENSION) or {} if isinstance(extensions, dict) else {}
    return Project(
        root=os.path.dirname(path) or ".",
        schema=_patterns(path, "schema", told["schema"]),
        documents=_patterns(path, "documents", told.get("documents")),
        exclude=_patterns(path, "exclude", told.get("exclude")),
        preludes=_patterns(path, "prelude", own.get("prelude")),
        name=name,
    )


def read(path: str) -> Optional[Config]:
    """The configuration in a file; None for a `package.json` that has none."""
    try:
        with open(path, encoding="utf-8") as file:
            told = _parsed(path, file.read())
    except (ValueError, OSError) as error:
        raise _wrong(path, f"cannot be read: {error}") from None
    if os.path.basename(path) == "package.json":
        told = told.get("graphql") if isinstance(told, dict) else None
        if told is None:
            return None
    told = _with_environment(told)
    if not isinstance(told, dict):
        raise _wrong(path, "is to be an object with `schema`, or with `projects`")
    if "projects" in told:
        projects: Dict[str, Any] = told["projects"]
        if not isinstance(projects, dict) or not projects:
            raise _wrong(path, "`projects` is to be an object with a project under each name")
        return Config(path, [_project(path, it, name) for name, it in projects.items()])
    return Config(path, [_project(path, told, None)])


def nearest(folder: str) -> Optional[Config]:
    """The configuration in a folder, or else in the nearest above it."""
    at = os.path.abspath(folder)
    while True:
        for name in NAMES:
            path = os.path.join(at, name)
            config = read(path) if os.path.isfile(path) else None
            if config:
                return config
        program = next((it for it in PROGRAMS if os.path.isfile(os.path.join(at, it))), None)
        if program:
            raise _wrong(os.path.join(at, program), "is a program: write it as .graphqlrc.yml or .graphqlrc.json")
        if os.path.dirname(at) == at:
            return None
        at = os.path.dirname(at)
