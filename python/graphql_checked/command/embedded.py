"""Texts of GraphQL in programs: what `gql` and `graphql` are given, what follows `/* GraphQL */`, and what begins with `#graphql`."""

import re
from typing import Callable, List, Match, Optional, Pattern, Tuple

from .sources import File, Hole, Source

CODE = re.compile(
    rb"""(?P<mark>/\*\s*GraphQL\s*\*/)
    |(?P<comment>//[^\n]*|/\*.*?\*/)
    |(?P<tag>(?<![\w$])(?:gql|graphql)(?![\w$]))
    |(?P<string>"(?:\\.|[^"\\\n])*"|'(?:\\.|[^'\\\n])*')
    |(?P<tick>`)
    |(?P<slash>/)
    |(?P<open>\{)
    |(?P<close>\})""",
    re.X | re.S,
)
AFTER_TAG = re.compile(rb"\s*(?:<[^`;(]*?>\s*)?(?P<round>\(\s*)?(?:/\*.*?\*/\s*)?(?=(?P<quote>[`\"']))", re.S)
AFTER_MARK = re.compile(rb"\s*(?=(?P<quote>[`\"']))")
REGEX = re.compile(rb"/(?![/*])(?:\\.|\[(?:\\.|[^\]\\\n])*\]|[^/\\\n\[])+/")
REGEX_AFTER = re.compile(rb"(?:[(,=:\[!&|?{;]|=>|\breturn|\btypeof|\bcase|^)\s*$")
PYTHON = re.compile(
    rb"""(?P<comment>\#[^\n]*)
    |(?P<tag>(?<!\w)(?:gql|graphql)\s*\((?:\s|\#[^\n]*\n)*(?=[rRuUbBfF]{0,2}["']))
    |(?P<string>(?P<prefix>(?<!\w)[rRuUbBfF]{1,2})?(?P<quote>\"\"\"|'''|"|'))""",
    re.X,
)
BETWEEN = re.compile(rb"(?:\s|#[^\n]*\n)*(?=[rRuUbBfF]{0,2}[\"'])")
ESCAPE = re.compile(rb"\\(?:u\{(?P<braced>[0-9A-Fa-f]{1,6})\}|[ux](?P<hex>[0-9A-Fa-f]{4}|[0-9A-Fa-f]{2})|U(?P<long>[0-9A-Fa-f]{8})|\r?\n|(?P<one>.))", re.S)
LETTERS = {b"n": b"\n", b"t": b"\t", b"r": b"\r", b"b": b"\b", b"f": b"\f", b"v": b"\v", b"0": b"\0"}
MARKED = re.compile(rb"\s*#graphql\b")
TEMPLATE = re.compile(rb"\\|`|\$\{")
Fill = Callable[[int], int]


def unescaped(found: Match[bytes]) -> bytes:
    """What an escape stands for. An end of line that is escaped stands for nothing."""
    code = found.group("braced") or found.group("hex") or found.group("long")
    if code:
        number = int(code, 16)
        return chr(number).encode("utf-8", "replace") if number < 0x110000 else b"?"
    one: Optional[bytes] = found.group("one")
    return b"" if one is None else LETTERS.get(one, one)


class _Text:
    """A text that is put together from the parts of a program."""

    def __init__(self) -> None:
        self.text = bytearray()
        self.anchors: List[Tuple[int, int]] = []
        self.holes: List[Hole] = []

    def add(self, data: bytes, at: int) -> None:
        """Adds bytes of the file as they are, or what stands there for others."""
        self.anchors.append((len(self.text), at))
        self.text += data

    def hole(self, start: int, end: int) -> None:
        """Adds a blank for what the program fills."""
        self.holes.append(Hole(start, end, len(self.text)))
        self.add(b" ", start)

    def source(self, file: File, end: int) -> Source:
        """The text, which ends there."""
        self.anchors.append((len(self.text), end))
        return Source(file, bytes(self.text), tuple(self.anchors), tuple(self.holes))


def _literal(data: bytes, at: int, special: Pattern[bytes], text: _Text, fill: Fill, raw: bool = False) -> int:
    """Adds a literal up to its end; the place after it. `special` matches its end, escapes, and where the program fills it."""
    while True:
        found = special.search(data, at)
        stop = found.start() if found else len(data)
        text.add(data[at:stop], at)
        if not found:
            return stop
        at, token = found.end(), found.group()
        if token in (b"${", b"{"):
            at = fill(at)
            text.hole(stop, at)
        elif token in (b"{{", b"}}"):
            text.add(token[:1], stop)
        elif token != b"\\":
            return at
        elif raw:
            at = min(stop + 2, len(data))
            text.add(data[stop:at], stop)
        else:
            escape = ESCAPE.match(data, stop)
            text.add(unescaped(escape) if escape else b"", stop)
            at = escape.end() if escape else at


class JavaScript:
    """Finds the texts of a program in JavaScript or TypeScript."""

    def __init__(self, file: File) -> None:
        self.file, self.data = file, file.data
        self.found: List[Source] = []

    def code(self, at: int, is_inside: bool) -> int:
        """Reads code, inside of `${..}` up to its brace; the place after it."""
        depth = 0
        while True:
            token = CODE.search(self.data, at)
            if not token:
                return len(self.data)
            at, kind = token.end(), token.lastgroup
            if kind in ("tag", "mark"):
                after = (AFTER_TAG if kind == "tag" else AFTER_MARK).match(self.data, at)
                if after and (after.group("quote") == b"`" or kind == "mark" or after.group("round")):
                    at = self.quoted(after.end(), True)
            elif kind == "tick":
                at = self.quoted(token.start(), False)
            elif kind == "slash":
                before = self.data[max(0, token.start() - 60) : token.start()]
                regex = REGEX.match(self.data, token.start()) if REGEX_AFTER.search(before) else None
                at = regex.end() if regex else at
            elif kind == "open":
                depth += 1
            elif kind == "close":
                if is_inside and not depth:
                    return at
                depth -= 1

    def quoted(self, at: int, is_tagged: bool) -> int:
        """Reads a literal, which is kept if it is GraphQL; the place after it."""
        index = len(self.found)
        text, quote = _Text(), self.data[at : at + 1]
        special = TEMPLATE if quote == b"`" else re.compile(rb"\\|\n|" + quote)
        end = _literal(self.data, at + 1, special, text, lambda it: self.code(it, True))
        if is_tagged or MARKED.match(text.text):
            self.found.insert(index, text.source(self.file, end - 1))
        return end


class Python:
    """Finds the texts of a program in Python."""

    def __init__(self, file: File) -> None:
        self.file, self.data = file, file.data
        self.found: List[Source] = []

    def code(self) -> None:
        """Reads all."""
        at, is_tagged = 0, False
        while True:
            token = PYTHON.search(self.data, at)
            if not token:
                return
            if token.lastgroup == "comment" or token.group("tag") is not None:
                is_tagged = token.group("tag") is not None
                at = token.end()
                continue
            text = _Text()
            end = self.literal(token, text)
            while is_tagged:
                between = BETWEEN.match(self.data, end)
                following = PYTHON.match(self.data, between.end()) if between else None
                if not following:
                    break
                end = self.literal(following, text)
            if is_tagged or MARKED.match(text.text):
                self.found.append(text.source(self.file, end - len(token.group("quote"))))
            at, is_tagged = end, False

    def literal(self, token: Match[bytes], text: _Text) -> int:
        """Adds a literal; the place after it."""
        prefix, quote = (token.group("prefix") or b"").lower(), token.group("quote")
        fills = rb"\{\{|\}\}|\{|" if b"f" in prefix else b""
        end = quote if len(quote) == 3 else quote + rb"|\n"
        return _literal(self.data, token.end(), re.compile(rb"\\|" + fills + end), text, self.filled, b"r" in prefix)

    def filled(self, at: int) -> int:
        """The place after the brace that closes what an f-string fills."""
        depth = 1
        for brace in re.compile(rb"[{}]").finditer(self.data, at):
            depth += 1 if brace.group() == b"{" else -1
            if not depth:
                return brace.end()
        return len(self.data)


def embedded(file: File, is_python: bool) -> List[Source]:
    """The texts of a program, in order."""
    if b"gql" not in file.data and b"graphql" not in file.data.lower():
        return []
    if is_python:
        python = Python(file)
        python.code()
        return python.found
    program = JavaScript(file)
    program.code(0, False)
    return program.found
