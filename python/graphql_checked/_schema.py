"""Schemas that are held."""

import ctypes
import os
import threading
from typing import Iterable, List, Optional, Tuple, Union

from ._library import Answer, Handle, Library, Options, Status, TextBytes, text_bytes
from ._report import Paths, Report

Text = Union[str, bytes]

NESTING = 398
"""How many brackets may be open at once where nothing is said: GRAPHQL_CHECKED_NESTING of the header."""


class LibraryError(Exception):
    """The base of this package's own errors."""


class NotUtf8Error(LibraryError):
    """A text is not UTF-8."""


class StackError(LibraryError):
    """The thread has too little stack for the nesting, by measure."""


class RefusedError(LibraryError):
    """Texts are refused, where a schema or a text was asked for. It carries the report."""

    report: Report

    def __init__(self, report: Report) -> None:
        super().__init__(str(report))
        self.report = report

    def __reduce__(self) -> Tuple[type, Tuple[Report]]:
        return RefusedError, (self.report,)


def _encoded(text: Text, what: str) -> bytes:
    if isinstance(text, bytes):
        return text
    if isinstance(text, str):
        # A lone surrogate is passed on as bytes that are not UTF-8, so that the library tells of it.
        return text.encode("utf-8", "surrogatepass")
    raise TypeError(f"{what} is to be str or bytes, not {type(text).__name__}")


def _size(number: int, what: str) -> int:
    """The number, which ctypes would otherwise cut to 64 bits."""
    if isinstance(number, bool) or not isinstance(number, int):
        raise TypeError(f"{what} is to be an int, not {type(number).__name__}")
    if not 0 <= number < 1 << 63:
        raise ValueError(f"{what} is to be from 0 to 2^63 - 1")
    return number


def _paths(paths: Iterable[Optional[str]]) -> List[Optional[str]]:
    if isinstance(paths, (str, bytes)):
        raise TypeError("paths are to be a list of str, one for each text")
    return [_path(path) for path in paths]


def _path(path: Optional[str]) -> Optional[str]:
    if path is not None and not isinstance(path, str):
        raise TypeError(f"a path is to be str, not {type(path).__name__}")
    return path


def _indent(indent: Union[int, str, None]) -> Optional[bytes]:
    if indent is None:
        return None
    if isinstance(indent, bool) or not isinstance(indent, (int, str)):
        raise TypeError(f"an indent is to be int, str or None, not {type(indent).__name__}")
    spaces = indent if isinstance(indent, str) else " " * _size(indent, "an indent")
    if "\0" in spaces:
        raise ValueError("an indent is to be of spaces and tabs")
    return _encoded(spaces, "an indent")


class Schema:
    """The schema of some texts, kept for many documents.

    `texts` is a text, or several: str, or bytes in UTF-8. `paths` are names of them, which faults carry. `nesting` is how many
    brackets may be open at once; 0 means 398. `stack` is the least free stack, in bytes, of any thread that calls; for 0 each thread
    is asked. A report has at most `max_faults` faults, and for 0 all. Raises RefusedError where the texts are refused, NotUtf8Error,
    StackError, MemoryError, or TypeError for what is no text.

    Threads that share a Schema wait for each other; with one each they run at once. If a signal handler, or a child that was forked
    during a call, checks a document, the texts are opened again for it: it always gets an answer. Copies and pickles open the texts
    again too. A Schema is closed by `close`, at the end of a `with`, or when nothing refers to it.
    """

    def __init__(
        self,
        texts: Union[Text, Iterable[Text]],
        *,
        paths: Optional[Iterable[Optional[str]]] = None,
        nesting: int = NESTING,
        stack: int = 0,
        max_faults: int = 0,
        library: Optional[Library] = None,
    ) -> None:
        if isinstance(texts, (str, bytes)):
            texts = [texts]
        elif isinstance(texts, (bytearray, memoryview)):
            raise TypeError(f"a text is to be str or bytes, not {type(texts).__name__}")
        self._texts = [_encoded(text, "a text") for text in texts]
        self._paths: List[Optional[str]] = [None] * len(self._texts) if paths is None else _paths(paths)
        if len(self._paths) != len(self._texts):
            raise ValueError("there are to be as many paths as texts")
        self._limits = _size(nesting, "a nesting"), _size(stack, "a stack"), _size(max_faults, "a number of faults")
        self._library = library or Library.default()
        self._begin()
        self._open()

    def _begin(self) -> None:
        self._lock, self._process, self._in_call = threading.RLock(), os.getpid(), False
        self._handle: Optional[Handle] = None

    def _open(self) -> None:
        """Opens the texts. They are named by their numbers, and the document by the one after."""
        texts = [text_bytes(text, f"text {number}") for number, text in enumerate(self._texts, 1)]
        options, answer, handle = Options(ctypes.sizeof(Options), *self._limits, 0), Answer(), Handle()
        call = self._library.functions.graphql_checked_open
        try:
            status = Status(call(handle, (TextBytes * len(texts))(*texts), len(texts), options, answer))
            told = answer.copied()
        finally:
            self._handle = handle  # closed by `__del__` where the texts are refused
        if status == Status.REFUSED:
            raise RefusedError(Paths(self._paths).report(told))
        self._raise(status)

    def _raise(self, status: Status) -> None:
        """The exception of a status that is neither accepted nor refused."""
        if status <= Status.REFUSED:
            return
        words = self._library.status_text(status)
        if status == Status.MEMORY:
            raise MemoryError(f"graphql_checked: {words}")
        if status == Status.INDENT:
            raise ValueError(words)
        if status == Status.CLOSED:
            raise ValueError("the schema is closed")
        raise {Status.NOT_UTF8: NotUtf8Error, Status.STACK: StackError}.get(status, LibraryError)(words)

    def _ask(self, name: str, *words: object) -> Tuple[Status, bytes]:
        """Asks, and copies the answer before another call takes its place."""
        if self._process != os.getpid():
            self._forked()
        with self._lock:
            if self._handle is None:
                raise ValueError("the schema is closed")
            if self._in_call:  # this thread is, and a signal handler asks
                with self._again() as other:
                    return other._ask(name, *words)
            handle, answer = self._handle, Answer()
            try:
                self._in_call = True
                status = Status(getattr(self._library.functions, name)(handle, *words, answer))
                return status, answer.copied()
            finally:
                self._in_call = False
                if self._handle is None:  # a signal handler closed it meanwhile
                    self._library.functions.graphql_checked_close(handle)

    def _forked(self) -> None:
        """In a child that was forked: no other thread is there to end its call, so the texts are opened again if one was in a call."""
        was_in_call, handle = self._in_call, self._handle
        self._begin()
        if was_in_call and handle is not None:
            self._open()
        else:
            self._handle = handle

    def _again(self) -> "Schema":
        nesting, stack, max_faults = self._limits
        return Schema(self._texts, paths=self._paths, nesting=nesting, stack=stack, max_faults=max_faults, library=self._library)

    def _document(self, document: Text) -> TextBytes:
        return text_bytes(_encoded(document, "a document"), f"text {len(self._texts) + 1}")

    def _report(self, told: bytes, path: Optional[str]) -> Report:
        return Paths([*self._paths, path]).report(told)

    def check(self, document: Text, *, path: Optional[str] = None) -> Report:
        """What is wrong with a document over the schema: the report is true where nothing is. Raises NotUtf8Error, StackError or
        MemoryError; the schema is as before."""
        path = _path(path)
        status, told = self._ask("graphql_checked_check", self._document(document))
        self._raise(status)
        return self._report(told, path)

    def text(self, indent: Union[int, str, None] = 2) -> str:
        """The canonical text of the schema, under so many spaces, or an indent of spaces and tabs; on one line for None."""
        status, told = self._ask("graphql_checked_schema_text", _indent(indent))
        self._raise(status)
        return told.decode("utf-8")

    def document_text(self, document: Text, indent: Union[int, str, None] = 2, *, path: Optional[str] = None) -> str:
        """The canonical text of a document. Raises RefusedError where the document is refused."""
        path = _path(path)
        status, told = self._ask("graphql_checked_document_text", self._document(document), _indent(indent))
        if status == Status.REFUSED:
            raise RefusedError(self._report(told, path))
        self._raise(status)
        return told.decode("utf-8")

    def close(self) -> None:
        """Frees the schema. Calls after that raise ValueError."""
        if self._process != os.getpid():
            handle = None if self._in_call else self._handle
            self._begin()
            self._handle = handle
        with self._lock:
            handle, self._handle = self._handle, None
            if handle is not None:
                self._library.functions.graphql_checked_close(handle)

    def __enter__(self) -> "Schema":
        return self

    def __exit__(self, *_: object) -> None:
        self.close()

    def __del__(self) -> None:
        if getattr(self, "_handle", None):
            self.close()

    def __repr__(self) -> str:
        count = len(self._texts)
        state = "closed" if self._handle is None else f"{count} text" + "s" * (count != 1)
        return f"<graphql_checked.Schema: {', '.join([state, *filter(None, self._paths)])}>"

    def __reduce__(self) -> Tuple[object, ...]:
        if self._handle is None:
            raise ValueError("the schema is closed")
        default = self._library is Library.default()
        return _reopened, (self._texts, self._paths, self._limits, None if default else self._library.path)


def _reopened(texts: List[bytes], paths: List[Optional[str]], limits: Tuple[int, int, int], path: Optional[str]) -> Schema:
    """The schema of a copy or a pickle."""
    nesting, stack, max_faults = limits
    library = Library(path) if path else None
    return Schema(texts, paths=paths, nesting=nesting, stack=stack, max_faults=max_faults, library=library)


def check(
    schema: Text,
    document: Text,
    *,
    nesting: int = NESTING,
    stack: int = 0,
    max_faults: int = 0,
    library: Optional[Library] = None,
) -> Report:
    """Checks one document over one schema text: the schema's faults if it has any, else the document's. Faults have the paths
    `schema` and `document`."""
    try:
        with Schema(schema, paths=["schema"], nesting=nesting, stack=stack, max_faults=max_faults, library=library) as held:
            return held.check(document, path="document")
    except RefusedError as refused:
        return refused.report
