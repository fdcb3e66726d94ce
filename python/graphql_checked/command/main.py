"""The words of `graphql-check`."""

import argparse
import io
import sys
from typing import List, Optional

from .. import build
from . import check, globs, manifest, server
from .failures import ACCEPTED, MEMORY, NOT_BUILT, UNREAD, Stop

DESCRIPTION = "Checks the schemas and documents of a repository, in the configuration of graphql-config."
STATUSES = """statuses: 0 accepted, 1 refused, 2 wrong words or configuration, 3 a file cannot be read or is not UTF-8, 4 out of memory,
70 the library is not there"""


def reader() -> argparse.ArgumentParser:
    """What reads the words."""
    found = argparse.ArgumentParser(prog="graphql-check", description=DESCRIPTION, epilog=STATUSES)
    found.add_argument("-V", "--version", action="store_true", help="tells the version, and whether the library is proved")
    commands = found.add_subparsers(dest="command", metavar="COMMAND")
    one = commands.add_parser("check", help="tells what is wrong (this is done without words, too)", description=check.__doc__, epilog=STATUSES)
    check.add(one)
    one.set_defaults(run=check.run)
    one = commands.add_parser("manifest", help="writes or compares the manifest of trusted documents", description=manifest.__doc__, epilog=STATUSES)
    manifest.add(one)
    one.set_defaults(run=manifest.run)
    one = commands.add_parser("lsp", help="serves an editor", description=server.__doc__)
    server.add(one)
    one.set_defaults(run=server.run)
    return found


def begin() -> None:
    """Output is UTF-8 in each locale, with LF; documents nest deeper than Python's calls may; files are looked for again."""
    for stream in (sys.stdout, sys.stderr):
        if isinstance(stream, io.TextIOWrapper):
            stream.reconfigure(encoding="utf-8", errors="backslashreplace", newline="\n")
    sys.setrecursionlimit(5000)
    globs.forget()


def main(words: Optional[List[str]] = None) -> int:
    """Does what the words ask for, and gives the status."""
    begin()
    given = reader().parse_args((sys.argv[1:] if words is None else words) or ["check"])
    if not given.command and not given.version:
        reader().error("name a command: check, manifest or lsp")
    try:
        if given.version:
            print(f"graphql-check {build()}")
            return ACCEPTED
        return int(given.run(given))
    except Stop as stop:
        print(f"graphql-check: {stop}", file=sys.stderr)
        return stop.status
    except MemoryError:
        print("graphql-check: out of memory", file=sys.stderr)
        return MEMORY
    except OSError as error:
        print(f"graphql-check: {error}", file=sys.stderr)
        return NOT_BUILT if "libgraphql_checked" in str(error) else UNREAD
    except KeyboardInterrupt:
        return 130
