"""Patterns of paths, as graphql-config has them: `*`, `**`, `?`, `[..]`, `{a,b}`, `@(a|b)`, and `!` before one that takes away."""

import functools
import os
import re
from typing import Iterable, Iterator, List, Pattern, Set, Tuple

from .failures import UNREAD, WRONG_WORDS

SPECIAL = re.compile(r"[*?\[{]|[@+!]\(")
NEVER = {"node_modules", "__pycache__"}
_PARTS: Tuple[Tuple[str, str], ...] = (
    (r"\*\*/", "(?:(?!\\.)[^/]+/)*"),
    (r"\*\*", "(?:(?!\\.)[^/]+(?:/|$))*"),
    (r"\*", "[^/]*"),
    (r"\?", "[^/]"),
)


def alternatives(pattern: str) -> List[str]:
    """The patterns that `{a,b}` stands for."""
    found = re.search(r"\{([^{}]*)\}", pattern)
    if not found:
        return [pattern]
    head, tail = pattern[: found.start()], pattern[found.end() :]
    return [it for part in found.group(1).split(",") for it in alternatives(head + part + tail)]


def _translated(pattern: str) -> Iterator[str]:
    """The parts of the regular expression of a pattern without `{..}`."""
    at, closes = 0, []
    while at < len(pattern):
        group = re.compile(r"([@+?*])\(").match(pattern, at)
        letters = re.compile(r"\[(!?)([^\]/]+)\]").match(pattern, at)
        part = next((it for it in _PARTS if re.compile(it[0]).match(pattern, at)), None)
        if group:
            closes.append({"@": ")", "+": ")+", "?": ")?", "*": ")*"}[group.group(1)])
            yield "(?:"
            at = group.end()
        elif closes and pattern[at] in "|)":
            yield "|" if pattern[at] == "|" else closes.pop()
            at += 1
        elif letters:
            yield f"[{'^' if letters.group(1) else ''}{re.escape(letters.group(2)).replace(chr(92) + '-', '-')}]"
            at = letters.end()
        elif part:
            starts = at == 0 or pattern[at - 1] == "/"
            yield ("(?!\\.)" if starts and not part[0].startswith(r"\*\*") else "") + part[1]
            at += len(part[0].replace("\\", ""))
        else:
            yield re.escape(pattern[at])
            at += 1


@functools.lru_cache(maxsize=None)
def expression(pattern: str) -> Pattern[str]:
    """The regular expression of a pattern, for whole paths."""
    return re.compile("|".join("".join(_translated(it)) for it in alternatives(pattern)))


def normal(pattern: str) -> str:
    """The pattern without `./` at its beginning; a folder's name stands for what is below it."""
    pattern = pattern.replace(os.sep, "/")
    while pattern.startswith("./"):
        pattern = pattern[2:]
    return "**" if pattern in ("", ".") else pattern


def base(pattern: str) -> str:
    """The folder below which all paths of a pattern are."""
    found = SPECIAL.search(pattern)
    return os.path.dirname(pattern[: found.start()]) if found else pattern


@functools.lru_cache(maxsize=None)
def _below(root: str, folder: str) -> Tuple[str, ...]:
    """The files below a folder, as paths from the root; without what is hidden, and packages that are installed."""
    found = []
    for at, folders, names in os.walk(os.path.join(root, folder)):
        folders[:] = sorted(it for it in folders if it not in NEVER and not it.startswith("."))
        found += [os.path.relpath(os.path.join(at, name), root).replace(os.sep, "/") for name in names]
    return tuple(sorted(found))


def forget() -> None:
    """Forgets which files there are, so that they are looked for again."""
    _below.cache_clear()


def matches(path: str, patterns: Iterable[str]) -> bool:
    """Whether a path is one of the patterns', or below a folder that is."""
    return any(expression(normal(it)).fullmatch(path) or path.startswith(normal(it).rstrip("/") + "/") for it in patterns)


def chooses(path: str, patterns: Iterable[str]) -> bool:
    """Whether `found` would give a path."""
    is_chosen = False
    for it in patterns:
        if it.startswith("!"):
            is_chosen = is_chosen and not expression(normal(it[1:])).fullmatch(path)
        else:
            is_chosen = is_chosen or matches(path, [it])
    return is_chosen


def unmet_words(pattern: str, what: str, folder: str) -> Tuple[int, str]:
    """The status and the words for a pattern that has no file: a file that is not there cannot be read."""
    if SPECIAL.search(pattern):
        return WRONG_WORDS, f"no {what} is named by `{pattern}` in {folder}"
    return UNREAD, f"{pattern}: cannot be read: there is no such file in {folder}"


def found(root: str, patterns: Iterable[str], endings: Tuple[str, ...]) -> Tuple[List[str], List[str]]:
    """The paths, from the root, of the files of these patterns, in order; and the patterns that have none. A folder stands for the
    files below it that have one of these endings."""
    paths: Set[str] = set()
    unmet = []
    for given in patterns:
        if given.startswith("!"):
            taken = expression(normal(given[1:]))
            paths = {it for it in paths if not taken.fullmatch(it)}
            continue
        pattern = normal(os.path.relpath(given, root) if os.path.isabs(given) else given)
        if not SPECIAL.search(given) and os.path.isdir(os.path.join(root, given)):
            new = [it for it in _below(root, "" if pattern == "**" else pattern) if it.endswith(endings)]
        elif os.path.isfile(os.path.join(root, pattern)):
            new = [pattern]
        else:
            new = [it for it in _below(root, base(pattern)) if expression(pattern).fullmatch(it)] if SPECIAL.search(pattern) else []
        if not new:
            unmet.append(given)
        paths.update(new)
    return sorted(paths), unmet
