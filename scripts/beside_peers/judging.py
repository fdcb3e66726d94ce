"""Judging a disagreement of the checker and a peer, and making its texts smaller."""
import collections
import re

from .classes import CLASSES
from .parts import Part

TOKEN = re.compile(r'"""(?:\\"""|(?!""")[\s\S])*"""|"(?:\\.|[^"\\\n\r])*"|#[^\n\r]*|\.\.\.|[A-Za-z_]\w*|-?\d[\w.+-]*|[^\s,\ufeff]')


def normal(text):
    """The tokens of a text with one space between them, without comments."""
    return " ".join(it for it in TOKEN.findall(text) if not it.startswith("#"))


# How a peer that does not answer is told.
NO_ANSWER = "no answer"


class Disagreement:
    """That the checker and a peer answer differently: the peer, whether over the `schema` or the `document`, the faults that are told by
    the one that refuses, and the texts."""

    def __init__(self, peer, at, faults, messages, schema, document):
        self.peer, self.at, self.schema, self.document = peer, at, schema, document
        self.side = "accepts" if faults else "refuses"
        self.told = list(dict.fromkeys(str(it) for it in faults or messages))
        self.classes, self.unexplained = [], []
        texts = normal(schema), normal(document)
        for told in self.told:
            found = [it for it in CLASSES if it.explains(self, told, *texts)]
            self.classes += [it for it in found[:1] if it not in self.classes]
            self.unexplained += [] if found else [told]

    def key(self):
        """What is unexplained, apart from names and numbers."""
        first = re.sub(r"[\"'`][^\"'`]*[\"'`]|\d+", "_", self.unexplained[0]) if self.unexplained else ""
        return self.peer, self.at, self.side, first.split("\n")[0][:60]

    def shown(self):
        """It, for people."""
        lines = [f"{self.peer} {self.side} this {self.at}, and the checker does not:"]
        lines += [f"  {told.splitlines()[0][:300]}" for told in self.unexplained]
        lines += [f"  schema: {self.schema}"] + ([f"  document: {self.document}"] if self.at == "document" else [])
        return "\n".join(lines)


def disagreements(name, schema, documents, ours, theirs):
    """Where a peer answers a schema and documents otherwise than the checker."""
    (of_schema, of_documents), (their_schema, their_documents) = ours, theirs
    if bool(of_schema) != bool(their_schema):
        yield Disagreement(name, "schema", of_schema, their_schema, schema, "")
    elif not of_schema:
        for text, faults, messages in zip(documents, of_documents, their_documents):
            if bool(faults) != bool(messages):
                yield Disagreement(name, "document", faults, messages, schema, text)


def asked(checker, peer, schema, document):
    """The first disagreement over a pair of texts, or None."""
    documents = [document]
    found = disagreements(peer.name, schema, documents, checker.verdicts(schema, documents), peer.verdicts(schema, documents))
    return next(found, None)


def smaller(part, still):
    """Leaves out of a tree what can be, as long as `still` holds: whole constructs before what is in them. Tells whether anything was."""
    changed = False
    for index in reversed(range(len(part.items))):
        old = part.items.pop(index)
        if still():
            changed = True
            continue
        part.items.insert(index, old)
        if isinstance(old, Part):
            changed |= smaller(old, still)
    return changed


def tidy(document):
    """A document without the variables and fragments that nothing uses any more."""
    while True:
        words = list(document.tokens())
        used = collections.Counter(words[i + 1] for i, it in enumerate(words[:-1]) if it in ("$", "..."))
        found = [(holder, index) for holder, index in document.parts() if is_unused(holder.items[index], used)]
        if not found:
            return document
        holder, index = found[-1]
        del holder.items[index]


def is_unused(part, used):
    """Whether it is a definition of a variable or fragment that is used nowhere, or a list of no definitions."""
    first = [it for it in part.items[:2] if isinstance(it, str)]
    if part.kind == "variable definitions":
        return list(part.tokens()) == ["(", ")"]
    if part.kind == "variable definition":
        return len(first) == 2 and used[first[1]] == 1
    return part.kind == "fragment definition" and len(first) == 2 and used[first[1]] == 0


def shrunk(checker, peer, schema, document, key, most=4000):
    """The same disagreement over smaller texts: schema and document are trees, of which as much is left out as can be."""
    left = [most]

    def same():
        left[0] -= 1
        if left[0] < 0 or NO_ANSWER in key:
            return False
        found = asked(checker, peer, schema.text(), tidy(document.copy()).text())
        return found is not None and found.key() == key

    schema, document = schema.copy(), document.copy()
    if not same():
        return None
    while smaller(document, same) | smaller(schema, same):
        pass
    return asked(checker, peer, schema.text(), tidy(document).text())
