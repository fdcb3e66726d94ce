"""The library for C, loaded, with the types of its functions: see `include/graphql_checked.h`."""

import ctypes
import enum
import functools
import os
from typing import Any, Dict, List, Tuple

from ._version import __version__

NAME = "libgraphql_checked.so"
LOADED = f"{NAME}.{__version__.rpartition('.')[0]}"  # by its SONAME: before 1.0.0 a new minor number may change anything


class Status(enum.IntEnum):
    """How a call ended: the numbers of the header."""

    ACCEPTED = 0
    REFUSED = 1
    NOT_UTF8 = 3
    MEMORY = 4
    STACK = 5
    NULL = 6
    INDENT = 8
    CLOSED = 9
    OPEN = 10
    BUSY = 11
    OPTIONS = 12


class Handle(ctypes.Structure):
    """`graphql_checked_schema`: what it points to belongs to the library."""

    _fields_ = [("at", ctypes.c_void_p)]


class TextBytes(ctypes.Structure):
    """`graphql_checked_text`."""

    _fields_ = [("bytes", ctypes.c_char_p), ("length", ctypes.c_size_t), ("path", ctypes.c_char_p)]


class Answer(ctypes.Structure):
    """`graphql_checked_answer`: it lasts until the next call on its handle."""

    _fields_ = [("bytes", ctypes.c_void_p), ("length", ctypes.c_size_t)]

    def copied(self) -> bytes:
        """The bytes."""
        return ctypes.string_at(self.bytes, self.length) if self.bytes else b""


class Options(ctypes.Structure):
    """`graphql_checked_options`."""

    _fields_ = [(name, ctypes.c_size_t) for name in ("size", "nesting", "stack", "max_faults", "form")]


def text_bytes(text: bytes, path: str) -> TextBytes:
    """A text under a name."""
    return TextBytes(text, len(text), path.encode())


_handle, _text, _answer = ctypes.POINTER(Handle), ctypes.POINTER(TextBytes), ctypes.POINTER(Answer)
_types: Dict[str, Tuple[Any, List[Any]]] = {
    "graphql_checked_version": (ctypes.c_uint32, []),
    "graphql_checked_proved": (ctypes.c_uint32, []),
    "graphql_checked_build": (ctypes.c_char_p, []),
    "graphql_checked_status_text": (ctypes.c_char_p, [ctypes.c_uint32]),
    "graphql_checked_open": (ctypes.c_uint32, [_handle, _text, ctypes.c_size_t, ctypes.POINTER(Options), _answer]),
    "graphql_checked_check": (ctypes.c_uint32, [_handle, _text, _answer]),
    "graphql_checked_schema_text": (ctypes.c_uint32, [_handle, ctypes.c_char_p, _answer]),
    "graphql_checked_document_text": (ctypes.c_uint32, [_handle, _text, ctypes.c_char_p, _answer]),
    "graphql_checked_close": (ctypes.c_uint32, [_handle]),
}


class Library:
    """The functions of the shared library at a path. Raises OSError where there is none, where it is another library, or where its
    version is another."""

    def __init__(self, path: str) -> None:
        self.path = path
        try:
            self.functions = ctypes.CDLL(path)
        except OSError as error:
            raise OSError(f"{error}: scripts/c_library makes {NAME}, and GRAPHQL_CHECKED_LIBRARY names its path") from error
        for name, (result, types) in _types.items():
            function = getattr(self.functions, name, None)
            if function is None:
                raise OSError(f"{path} is not {NAME} of version {__version__}: it has no {name}")
            function.argtypes, function.restype = types, result
        if self.version != tuple(map(int, __version__.split("."))):
            raise OSError(f"{path} is of version {'.'.join(map(str, self.version))}, and this package of {__version__}")

    @staticmethod
    @functools.lru_cache(maxsize=None)
    def default() -> "Library":
        """The library at GRAPHQL_CHECKED_LIBRARY, or else beside this file, or where scripts/c_library makes it, or where
        scripts/install puts it, or the system's."""
        named = os.environ.get("GRAPHQL_CHECKED_LIBRARY")
        here = os.path.dirname(os.path.abspath(__file__))
        places = [os.path.join(here, NAME), os.path.join(here, "../../.built/c", NAME), os.path.join(here, "../../..", LOADED)]
        there: List[str] = [place for place in places if os.path.exists(place)]
        return Library(named or (there[0] if there else LOADED))

    @property
    def version(self) -> Tuple[int, int, int]:
        """Its version: major, minor, patch."""
        number: int = self.functions.graphql_checked_version()
        return number // 10_000, number // 100 % 100, number % 100

    def status_text(self, status: Status) -> str:
        """A status in words."""
        text: bytes = self.functions.graphql_checked_status_text(status)
        return text.decode()


def version() -> Tuple[int, int, int]:
    """The version of the library: major, minor, patch."""
    return Library.default().version


def build() -> str:
    """How the library was made: its version, the commit of its sources, and `proved` or `not proved`."""
    text: bytes = Library.default().functions.graphql_checked_build()
    return text.decode()


def is_proved() -> bool:
    """Whether the library was proved before it was built."""
    return bool(Library.default().functions.graphql_checked_proved())
