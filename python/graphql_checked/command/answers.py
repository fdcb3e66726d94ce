"""What an editor asks at a place: what is meant there, where it is defined, what may be meant, and the text laid out."""

import json
import os
import re
from typing import Any, Dict, List, Optional, Tuple
from urllib.parse import quote, unquote, urlparse

from .. import RefusedError
from .findings import Finding, Place
from .manifest import own_text
from .outline import definitions, has_comments, tokens
from .sources import File, Source
from .typesystem import Member, TypeSystemDefinition
from .uses import Use, uses
from .workspace import Open, Workspace

MEANT = re.compile(r"did you mean `\$?(\w+)`\?")


def path_of(uri: str) -> str:
    """The real path of a URI."""
    return os.path.realpath(unquote(urlparse(uri).path))


def uri_of(path: str) -> str:
    """The URI of a path."""
    return "file://" + quote(os.path.abspath(path))


def utf16(text: str) -> int:
    """How many units of UTF-16 a text has."""
    return len(text.encode("utf-16-le", "surrogatepass")) // 2


def position(file: File, offset: int) -> Dict[str, int]:
    """A byte of a file for an editor: the line from 0, the column in units of UTF-16."""
    line = file.line_of(offset)
    return {"line": line, "character": utf16(file.data[file.starts[line] : offset].decode("utf-8", "replace"))}


def span(file: File, start: int, end: int) -> Dict[str, Any]:
    """Bytes of a file for an editor."""
    return {"start": position(file, start), "end": position(file, end)}


def offset_of(file: File, at: Dict[str, int]) -> int:
    """The byte of a place of an editor."""
    if at["line"] >= len(file.starts):
        return len(file.data)
    start = file.starts[at["line"]]
    end = file.starts[at["line"] + 1] if at["line"] + 1 < len(file.starts) else len(file.data)
    line = file.data[start:end].decode("utf-8", "replace").rstrip("\r\n")
    before = line.encode("utf-16-le", "surrogatepass")[: 2 * at["character"]].decode("utf-16-le", "ignore")
    return start + len(before.encode("utf-8"))


def rules() -> Dict[str, List[str]]:
    """The sentences of the rules, by their names."""
    with open(os.path.join(os.path.dirname(os.path.abspath(__file__)), "rules.json"), encoding="utf-8") as file:
        found: Dict[str, List[str]] = json.load(file)
    return found


def diagnostic(file: File, it: Finding) -> Dict[str, Any]:
    """A finding for an editor."""
    start = it.place.offset or 0
    found: Dict[str, Any] = {
        "range": span(file, start, start + (it.place.length or 0)),
        "severity": 1 if it.severity == "error" else 2,
        "code": it.rule,
        "source": "graphql-checked",
        "message": it.message + (f"\n{it.hint}" if it.hint else ""),
    }
    if it.severity == "warning":
        found["tags"] = [2]
    found["relatedInformation"] = [{"location": place_location(noted.place), "message": noted.words} for noted in it.related if noted.place.line]
    return found


def place_location(place: Place) -> Dict[str, Any]:
    """A place as a location; its column is of characters, as near as is needed."""
    at = {"line": (place.line or 1) - 1, "character": (place.column or 1) - 1}
    return {"uri": uri_of(place.path), "range": {"start": at, "end": at}}


def replacement(file: File, it: Finding) -> Optional[Tuple[int, int, str]]:
    """The bytes that a hint would replace, and by what."""
    meant = MEANT.fullmatch(it.hint or "")
    if not meant or it.place.offset is None or it.place.length is None:
        return None
    wrong = {value.lstrip("$@") for value in it.fields.values()}
    for token in tokens(file.data[it.place.offset : it.place.offset + it.place.length]):
        if token.lastgroup == "name" and token.group().decode() in wrong:
            return it.place.offset + token.start(), it.place.offset + token.end(), meant.group(1)
    return None


def action(file: File, it: Finding, uri: str) -> Optional[Dict[str, Any]]:
    """A hint as a change that an editor can make."""
    found = replacement(file, it)
    if not found:
        return None
    start, end, text = found
    edit = {"changes": {uri: [{"range": span(file, start, end), "newText": text}]}}
    return {"title": f"Replace by `{text}`", "kind": "quickfix", "diagnostics": [diagnostic(file, it)], "edit": edit, "isPreferred": True}


def use_at(workspace: Workspace, path: str, offset: int) -> Optional[Tuple[Open, Source, Use]]:
    """The name of a document that is at a byte of a file."""
    found = workspace.source_at(path, offset)
    if not found:
        return None
    project, source, at = found
    for use in uses(source.text, project.held.types):
        if use.start <= at <= use.end:
            return project, source, use
    return None


def described(use_text: str, member: Member) -> str:
    """What is told of a definition: how it is written, and its description."""
    deprecated = f"\n\nDeprecated. {member.reason}" if "deprecated" in member.directives else ""
    return f"```graphql\n{use_text}\n```" + (f"\n\n{member.description}" if member.description else "") + deprecated


def type_text(it: Member) -> str:
    """A type or a directive as its definition begins."""
    if not isinstance(it, TypeSystemDefinition):
        return it.signature
    if it.kind == "directive":
        return f"directive @{it.signature} on {' | '.join(it.names)}"
    named = f" = {' | '.join(it.names)}" if it.kind == "union" else f" implements {' & '.join(it.names)}" if it.names else ""
    return f"{it.kind} {it.name}{named}"


def hover(workspace: Workspace, path: str, file: File, offset: int, found: List[Finding]) -> Optional[str]:
    """What is told at a byte: of a fault the sentences of its rule, of a name its definition."""
    told = []
    known = rules()
    for it in found:
        if it.place.offset is not None and it.place.offset <= offset <= it.place.offset + (it.place.length or 0):
            sentences = "\n\n".join(f"{text}." for text in known.get(it.rule, []))
            told.append(f"**{it.rule}**: {it.message}" + (f"\n\n{sentences}" if sentences else ""))
    at = use_at(workspace, path, offset)
    if at and at[2].member:
        use, member = at[2], at[2].member
        told.append(described(f"{use.owner}.{member.signature}" if use.kind in ("field", "input field") else type_text(member), member))
    elif not at:
        named = type_at(workspace, path, file, offset)
        told += [described(type_text(named[2]), named[2])] if named else []
    return "\n\n---\n\n".join(told) or None


def type_at(workspace: Workspace, path: str, file: File, offset: int) -> Optional[Tuple[Open, int, TypeSystemDefinition]]:
    """The type whose name is at a byte of a schema's file."""
    for project in workspace.projects:
        if path not in project.schema_paths:
            continue
        for token in tokens(file.data):
            if token.lastgroup == "name" and token.start() <= offset <= token.end():
                for number, it in project.held.types.types.get(token.group().decode(), []):
                    return project, number, it
    return None


def schema_location(project: Open, number: int, it: Member) -> List[Dict[str, Any]]:
    """Where a part of a schema is defined; nowhere for what is made from an introspection result or is a prelude's."""
    source = project.held.texts[number].source
    if not source:
        return []
    start, end = source.in_file(it.start), source.in_file(it.end)
    return [{"uri": uri_of(source.file.path), "range": span(source.file, start, end)}]


def definition(workspace: Workspace, path: str, file: File, offset: int) -> List[Dict[str, Any]]:
    """Where the name at a byte is defined."""
    at = use_at(workspace, path, offset)
    if not at:
        named = type_at(workspace, path, file, offset)
        return schema_location(*named) if named else []
    project, source, use = at
    if use.kind != "fragment":
        return schema_location(project, use.text, use.member) if use.member else []
    number = next((index for index, it in enumerate(project.documents.sources) if it is source), -1)
    found = []
    for other, index in project.documents.project.named(use.name, number):
        of, it = project.documents.sources[other], project.documents.project.definition((other, index))
        start = of.text.index(use.name.encode(), it.start + len(b"fragment"))
        found.append({"uri": uri_of(of.file.path), "range": span(of.file, of.in_file(start), of.in_file(start + len(use.name)))})
    return found


def laid_out(project: Open, source: Source, indent: str) -> Optional[bytes]:
    """The canonical text of a document's own definitions; None where it is refused, or has a comment, which would be lost."""
    schema, documents = project.held.schema, project.documents
    number = next((index for index, it in enumerate(documents.sources) if it is source), -1)
    if not schema or number < 0 or source.definitions is None or has_comments(source.text) or source.holes:
        return None
    own = [(number, index) for index in range(len(source.definitions))]
    found: Dict[Tuple[bool, str], bytes] = {}
    for node in [it for it in documents.project.operations if own[0][0] == it[0] or set(own) & documents.project.reached([it])]:
        try:
            text = schema.document_text(own_text(documents, node), indent).encode("utf-8")
        except RefusedError:
            return None
        for it in definitions(text) or []:
            if it.is_fragment or node in own:
                found[(it.is_fragment, it.name)] = text[it.start : it.end]
    keys = [(it.is_fragment, it.name) for it in source.definitions]
    if not keys or any(it not in found for it in keys) or len(set(keys)) < len(keys):
        return None
    return b"\n\n".join(found[it] for it in sorted(keys, key=lambda key: key[0])) + b"\n"


def formatted(workspace: Workspace, path: str, file: File, indent: str) -> Optional[List[Dict[str, Any]]]:
    """The changes that lay a file out: of a document, or of the only file of a schema."""
    text: Optional[bytes] = None
    for project in workspace.projects:
        schema = project.held.schema
        sources = project.texts.get(path, [])
        if len(sources) == 1 and sources[0].text == file.data:
            text = laid_out(project, sources[0], indent)
        elif schema and path in project.schema_paths and len(project.held.texts) == 1 and project.held.texts[0].text == file.data and not has_comments(file.data):
            text = schema.text(indent).encode("utf-8")
    if text is None or text == file.data:
        return None if text is None else []
    return [{"range": span(file, 0, len(file.data)), "newText": text.decode("utf-8")}]
