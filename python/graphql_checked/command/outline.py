"""Where the definitions of a document are, what they are called, and which fragments they spread.

It reads tokens and brackets alone. It decides what is put together as one document, and no verdict: each definition that it finds
reaches the library in full."""

import re
from dataclasses import dataclass
from typing import Iterator, List, Match, Optional, Tuple

TOKENS = re.compile(
    rb"""(?P<skip>[ \t\r\n,]+|\xef\xbb\xbf|\#[^\r\n]*)
    |(?P<string>\"\"\"(?:\\\"\"\"|[^"]|"(?!""))*\"\"\"|"(?:\\.|[^"\\\r\n])*")
    |(?P<spread>\.\.\.)
    |(?P<name>[_A-Za-z][_0-9A-Za-z]*)
    |(?P<open>\{)
    |(?P<close>\})
    |(?P<round>\()
    |(?P<end_round>\))
    |(?P<mark>[\[\]:=!|&@$])
    |(?P<number>-?[0-9][0-9A-Za-z.+-]*)
    |(?P<bad>.)""",
    re.X | re.S,
)
OPERATIONS = (b"query", b"mutation", b"subscription")
HEAD = re.compile(rb"fragment(?:[\s,]|#[^\r\n]*)+(?!on\b)([_A-Za-z][_0-9A-Za-z]*)(?:[\s,]|#[^\r\n]*)+on\b")


@dataclass(frozen=True)
class Definition:
    """An operation or a fragment."""

    kind: str
    """`query`, `mutation`, `subscription` or `fragment`."""
    name: str
    """Its name; empty where an operation has none."""
    start: int
    """The byte of the text where it begins."""
    end: int
    """The byte after its last."""
    spreads: Tuple[str, ...] = ()
    """The fragments that it spreads, each once, in order."""

    @property
    def is_fragment(self) -> bool:
        """Whether it is a fragment."""
        return self.kind == "fragment"


def tokens(text: bytes) -> Iterator[Match[bytes]]:
    """The tokens of a text, with what is between them."""
    return TOKENS.finditer(text)


def has_comments(text: bytes) -> bool:
    """Whether a text has a comment."""
    return any(it.lastgroup == "skip" and it.group().startswith(b"#") for it in tokens(text))


class _Reader:
    """Finds one definition after another."""

    def __init__(self) -> None:
        self.found: List[Definition] = []
        self._begin()

    def _begin(self) -> None:
        self.start, self.kind, self.name = -1, "", ""
        self.braces = self.rounds = 0
        self.wants_name = self.after_spread = False
        self.spreads: List[str] = []

    def head(self, kind: str, token: bytes, at: int) -> bool:
        """Takes a token that is in no selections; False where no definition begins with it."""
        if self.start < 0:
            self.start, self.kind = at, "query" if kind == "open" else token.decode()
            self.wants_name = token in OPERATIONS
            return kind == "open" or token in OPERATIONS or token == b"fragment"
        if self.wants_name and kind == "name":
            self.name = token.decode()
        self.wants_name = False
        return True

    def take(self, kind: str, token: bytes, at: int, end: int) -> bool:
        """Takes a token; False where the text is no document."""
        if not self.braces and not self.head(kind, token, at):
            return False
        if kind == "round":
            self.rounds += 1
        elif kind == "end_round":
            self.rounds -= 1
        elif kind == "open" and not self.rounds:
            self.braces += 1
        elif kind == "close" and not self.rounds:
            self.braces -= 1
        if self.after_spread and kind == "name" and token != b"on" and token.decode() not in self.spreads:
            self.spreads.append(token.decode())
        self.after_spread = kind == "spread"
        if kind == "close" and not self.braces and not self.rounds:
            self.found.append(Definition(self.kind, self.name, self.start, end, tuple(self.spreads)))
            self._begin()
        return self.braces >= 0 and self.rounds >= 0


def definitions(text: bytes) -> Optional[List[Definition]]:
    """The operations and fragments of a text in order; None where it has something else, so that it can't be cut into them."""
    reader = _Reader()
    for token in TOKENS.finditer(text):
        kind = token.lastgroup or "bad"
        if kind == "skip":
            continue
        if kind == "bad" or not reader.take(kind, token.group(), token.start(), token.end()):
            return None
    if reader.start >= 0:
        return None
    found = []
    for it in reader.found:
        if it.is_fragment:
            head = HEAD.match(text, it.start)
            if not head:
                return None
            it = Definition(it.kind, head.group(1).decode(), it.start, it.end, it.spreads)
        found.append(it)
    return found


def is_type_system(text: bytes) -> bool:
    """Whether a text begins as one of definitions of types does, after descriptions."""
    for token in tokens(text):
        if token.lastgroup == "name":
            return token.group() in (b"schema", b"type", b"interface", b"union", b"enum", b"input", b"scalar", b"directive", b"extend")
        if token.lastgroup not in ("skip", "string"):
            return False
    return False
