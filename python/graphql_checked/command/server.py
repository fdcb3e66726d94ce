"""`graphql-check lsp`: a server for editors, over standard input and output (Language Server Protocol)."""

import argparse
import os
import queue
import sys
from typing import Any, Callable, Dict, List, Optional, Set

from .. import __version__
from . import answers
from .findings import Finding
from .protocol import FAILED, NO_METHOD, Connection, Message
from .sources import File
from .workspace import Workspace

QUIET = 0.05
"""For so many seconds no message has to come before documents are checked, so that it is not done at each key."""
CAPABILITIES = {
    "textDocumentSync": {"openClose": True, "change": 1, "save": {"includeText": False}},
    "hoverProvider": True,
    "definitionProvider": True,
    "codeActionProvider": {"codeActionKinds": ["quickfix"]},
    "documentFormattingProvider": True,
}


class Server:
    """The state between messages."""

    def __init__(self, connection: Connection, path: Optional[str]) -> None:
        self.connection = connection
        self.workspace = Workspace(os.getcwd(), path)
        self.uris: Dict[str, str] = {}
        self.versions: Dict[str, int] = {}
        self.findings: Dict[str, List[Finding]] = {}
        self.told: Set[str] = set()
        self.is_stale = self.is_shut_down = False
        self.requests: Dict[str, Callable[[Any], Any]] = {
            "initialize": self.initialize,
            "shutdown": self.shut_down,
            "textDocument/hover": self.hover,
            "textDocument/definition": self.definition,
            "textDocument/codeAction": self.actions,
            "textDocument/formatting": self.formatting,
        }
        self.notices: Dict[str, Callable[[Any], None]] = {
            "textDocument/didOpen": self.opened,
            "textDocument/didChange": self.changed,
            "textDocument/didClose": self.closed,
            "textDocument/didSave": self.saved,
            "workspace/didChangeWatchedFiles": self.saved,
        }

    def initialize(self, params: Any) -> Any:
        """Begins."""
        folders = params.get("workspaceFolders") or []
        uri = folders[0]["uri"] if folders else params.get("rootUri")
        if uri:
            self.workspace.folder = answers.path_of(uri)
        self.read()
        return {"capabilities": CAPABILITIES, "serverInfo": {"name": "graphql-checked", "version": __version__}}

    def read(self) -> None:
        """Reads the projects again, and tells what is in the way."""
        self.workspace.read()
        for words in self.workspace.wrong:
            self.connection.notify("window/showMessage", {"type": 1, "message": f"graphql-check: {words}"})
        self.is_stale = True

    def shut_down(self, _: Any) -> None:
        """Ends; `exit` follows."""
        self.is_shut_down = True

    def opened(self, params: Any) -> None:
        """A file is opened."""
        self.take(params["textDocument"], params["textDocument"]["text"])

    def changed(self, params: Any) -> None:
        """A file has another text."""
        self.take(params["textDocument"], params["contentChanges"][-1]["text"])

    def closed(self, params: Any) -> None:
        """A file is closed, so that what is written to it holds."""
        self.take(params["textDocument"], None)

    def saved(self, _: Any) -> None:
        """Files are written: all is read again, since the configuration may be among them."""
        self.read()

    def take(self, document: Dict[str, Any], text: Optional[str]) -> None:
        """Takes the text of a file."""
        path = answers.path_of(document["uri"])
        self.uris[path] = document["uri"]
        self.versions[path] = document.get("version", 0)
        self.workspace.change(path, None if text is None else text.encode("utf-8", "surrogatepass"))
        self.is_stale = True

    def file(self, path: str) -> File:
        """A file as the editor has it."""
        if path in self.workspace.overlays:
            return File(path, self.workspace.overlays[path])
        with open(path, "rb") as file:
            return File(path, file.read())

    def check(self) -> None:
        """Checks what is open, and tells what is found."""
        self.is_stale = False
        self.findings = self.workspace.findings()
        for path in sorted(self.told | set(self.findings)):
            found = self.findings.get(path, [])
            if not found and path not in self.told and path not in self.workspace.overlays:
                continue
            file = self.file(path) if found else None
            listed = [answers.diagnostic(file, it) for it in found if file]
            told: Dict[str, Any] = {"uri": self.uris.get(path) or answers.uri_of(path), "diagnostics": listed}
            if path in self.workspace.overlays:
                told["version"] = self.versions[path]
            self.connection.notify("textDocument/publishDiagnostics", told)
            self.told = self.told | {path} if found else self.told - {path}

    def at(self, params: Any) -> Any:
        """The path, the file and the byte of a request."""
        if self.is_stale:
            self.check()
        path = answers.path_of(params["textDocument"]["uri"])
        file = self.file(path)
        return path, file, answers.offset_of(file, params["position"]) if "position" in params else 0

    def hover(self, params: Any) -> Any:
        """What is told at a place."""
        path, file, offset = self.at(params)
        text = answers.hover(self.workspace, path, file, offset, self.findings.get(path, []))
        return text and {"contents": {"kind": "markdown", "value": text}}

    def definition(self, params: Any) -> Any:
        """Where a name is defined."""
        return answers.definition(self.workspace, *self.at(params))

    def actions(self, params: Any) -> Any:
        """The hints of faults in a range."""
        path, file, _ = self.at(params)
        start, end = (answers.offset_of(file, params["range"][it]) for it in ("start", "end"))
        uri = params["textDocument"]["uri"]
        near = [it for it in self.findings.get(path, []) if it.place.offset is not None and it.place.offset <= end and start <= it.place.offset + (it.place.length or 0)]
        return [it for it in (answers.action(file, one, uri) for one in near) if it]

    def formatting(self, params: Any) -> Any:
        """The changes that lay a file out."""
        path, file, _ = self.at(params)
        options = params.get("options", {})
        indent = " " * options.get("tabSize", 2) if options.get("insertSpaces", True) else "\t"
        return answers.formatted(self.workspace, path, file, indent)

    def answer(self, message: Message) -> None:
        """Answers a request."""
        method, reply = message["method"], {"id": message["id"]}
        if method not in self.requests:
            self.connection.send({**reply, "error": {"code": NO_METHOD, "message": f"{method} is not known"}})
            return
        try:
            self.connection.send({**reply, "result": self.requests[method](message.get("params") or {})})
        except (OSError, KeyError, ValueError, RecursionError) as error:
            self.connection.send({**reply, "error": {"code": FAILED, "message": f"{type(error).__name__}: {error}"}})

    def serve(self) -> int:
        """Answers until the end; the status that the protocol asks for."""
        while True:
            try:
                message = self.connection.next(QUIET if self.is_stale else None)
            except queue.Empty:
                self.check()
                continue
            if message is None or message.get("method") == "exit":
                return 0 if self.is_shut_down else 1
            if "id" in message and "method" in message:
                self.answer(message)
            elif message.get("method") in self.notices:
                self.notices[message["method"]](message.get("params") or {})


def add(reader: argparse.ArgumentParser) -> None:
    """Adds the words of the command."""
    reader.add_argument("--config", metavar="FILE", help="the configuration; else the nearest of the editor's folder")
    reader.add_argument("--stdio", action="store_true", help="what is done anyway; some editors say so")


def run(given: argparse.Namespace) -> int:
    """Serves an editor."""
    outgoing = os.fdopen(os.dup(sys.stdout.fileno()), "wb")
    os.dup2(sys.stderr.fileno(), sys.stdout.fileno())
    return Server(Connection(sys.stdin.buffer, outgoing), given.config).serve()
