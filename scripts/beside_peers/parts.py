"""Texts as trees: a part is a construct of the grammar, with its tokens and smaller parts in order.

What makes texts (schemas.py, documents.py), breaks them (breakages.py) and makes them smaller (beside) shares this form, so that a
breakage is written once for all constructs.
"""
import re

NAME = re.compile(r"[A-Za-z_][0-9A-Za-z_]*$")


class Part:
    """A construct: its kind, as it is counted, and its tokens and parts."""

    __slots__ = ("kind", "items")

    def __init__(self, kind, *items):
        self.kind, self.items = kind, [it for it in items if it is not None]

    def copy(self):
        """The same tree again, with nothing shared."""
        return Part(self.kind, *(it.copy() if isinstance(it, Part) else it for it in self.items))

    def parts(self):
        """Each part of it but itself, with what holds it and at which index."""
        for index, item in enumerate(self.items):
            if isinstance(item, Part):
                yield self, index
                yield from item.parts()

    def holders(self):
        """Itself, and each part of it."""
        yield self
        for holder, index in self.parts():
            yield holder.items[index]

    def leaves(self):
        """Where each token is: what holds it, and at which index."""
        for holder in self.holders():
            for index, item in enumerate(holder.items):
                if isinstance(item, str):
                    yield holder, index

    def tokens(self):
        """Its tokens in order."""
        for item in self.items:
            if isinstance(item, Part):
                yield from item.tokens()
            else:
                yield item

    def text(self):
        """Its text on one line, a space between tokens."""
        return " ".join(self.tokens())


def laid_out(part, random):
    """Its text with spaces, commas, line ends and comments between tokens, as random gives them."""
    style = random.choice(["line", "line", "lines", "noise"])
    if style == "line":
        return part.text()
    between = ["\n"] + [" "] * 5 if style == "lines" else [" ", " ", "\n", "\r\n", "\r", "\t", ",", " , ", "\ufeff", " # a } comment \" \n", "\n\n"]
    return "".join(token + random.choice(between) for token in part.tokens())


def typed(text):
    """The part of a type that is written so."""
    return Part("type", *re.findall(r"[\[\]!]|\w+", text))


def inner(text):
    """The name within a type."""
    return text.strip("[]!")


def nullable(text):
    """A type without its outer mark."""
    return text[:-1] if text.endswith("!") else text


def item_of(text):
    """The type of the items of a list type, None of another."""
    text = nullable(text)
    return text[1:-1] if text.startswith("[") else None
