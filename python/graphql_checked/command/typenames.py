"""`__typename` in the selections of a document, where Apollo Client adds it to what it sends."""

from typing import List

from .outline import OPERATIONS, TOKENS


class Selections:
    """Selections that are open."""

    def __init__(self, is_root: bool) -> None:
        self.is_root = is_root
        """Whether they are those of an operation, which get no `__typename`."""
        self.has_own = False
        """Whether they have it, or another field of introspection."""


def with_typenames(text: bytes) -> bytes:
    """The text of a document with `__typename` last in all selections but those of operations, and those that ask for it, or for
    introspection, themselves."""
    found = [it for it in TOKENS.finditer(text) if it.lastgroup != "skip"]
    made, at = bytearray(), 0
    open_ones: List[Selections] = []
    rounds, is_operation = 0, True
    for index, token in enumerate(found):
        kind, before = token.lastgroup, found[index - 1].group() if index else b""
        rounds += {"round": 1, "end_round": -1}.get(kind or "", 0)
        if not open_ones and kind == "name" and token.group() in (*OPERATIONS, b"fragment") and not rounds and before in (b"", b"}"):
            is_operation = token.group() != b"fragment"
        elif kind == "open" and not rounds:
            open_ones.append(Selections(is_operation and not open_ones))
        elif kind == "name" and open_ones and not rounds and token.group().startswith(b"__") and before not in (b"...", b"on", b"@"):
            open_ones[-1].has_own |= found[index + 1].group() != b":" if index + 1 < len(found) else False
        elif kind == "close" and open_ones and not rounds:
            closed = open_ones.pop()
            if not closed.is_root and not closed.has_own:
                made += text[at : token.start()] + b" __typename "
                at = token.start()
            is_operation = is_operation or not open_ones
    return bytes(made + text[at:])
