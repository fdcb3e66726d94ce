"""Which files of a repository changed since a revision."""

import os
import subprocess
from typing import List, Set

from .failures import WRONG_WORDS, Stop


def _git(folder: str, *words: str) -> List[str]:
    """The paths that git prints, each ended by a zero byte."""
    try:
        done = subprocess.run(["git", "-C", folder, *words], stdin=subprocess.DEVNULL, capture_output=True, check=False)
    except OSError as error:
        raise Stop(WRONG_WORDS, f"--since asks git, which cannot be run: {error.strerror}") from None
    if done.returncode:
        said = done.stderr.decode("utf-8", "replace").strip().split("\n")[0]
        raise Stop(WRONG_WORDS, f"git {words[0]}: {said}")
    return [it.decode("utf-8", "surrogateescape") for it in done.stdout.split(b"\0") if it]


def changed(folder: str, revision: str) -> Set[str]:
    """The real paths of the files that differ from a revision, or that git does not have yet; those that were removed too."""
    if revision.startswith("-"):
        raise Stop(WRONG_WORDS, f"`{revision}` is no revision")
    top = subprocess.run(["git", "-C", folder, "rev-parse", "--show-toplevel"], capture_output=True, check=False).stdout.decode().strip()
    names = _git(folder, "diff", "--name-only", "-z", "--no-renames", revision, "--")
    new = _git(top or folder, "ls-files", "-z", "--others", "--exclude-standard")
    return {os.path.realpath(os.path.join(top, it)) for it in names + new}
