"""The proved GraphQL checker, over its library for C.

    schema = Schema([open("schema.graphql").read()], paths=["schema.graphql"])
    for fault in schema.check("{ b }", path="query.graphql"):
        print(fault.path, fault.line, fault.column, fault.rule, fault.message, fault.hint)

`schema.check(text)` gives a `Report`. **A report is true where the text is accepted**: `if schema.check(text): run(text)`. It is
also a sequence of its faults, which is empty exactly then.

A verdict is proved where `graphql_checked.proved` is True; this package passes texts and numbers on, and is not. The library,
`libgraphql_checked.so`, is loaded when it is first needed: from the path in GRAPHQL_CHECKED_LIBRARY, or else from beside this
file, where a wheel has it, or else from where `scripts/c_library` makes it, or from where the system has it.
"""

from ._library import Library, Status, build, is_proved, version
from ._report import Fault, Related, Report
from ._schema import (
    NESTING,
    LibraryError,
    NotUtf8Error,
    RefusedError,
    Schema,
    StackError,
    check,
)
from ._version import __version__

__all__ = [
    "NESTING",
    "Fault",
    "Library",
    "LibraryError",
    "NotUtf8Error",
    "RefusedError",
    "Related",
    "Report",
    "Schema",
    "StackError",
    "Status",
    "__version__",
    "build",
    "check",
    "proved",
    "version",
]

proved: bool


def __getattr__(name: str) -> bool:
    """`proved`: whether the library was proved before it was built. It is asked once it is wanted, since that loads the library."""
    if name == "proved":
        return is_proved()
    raise AttributeError(f"module {__name__!r} has no attribute {name!r}")
