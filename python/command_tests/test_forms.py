"""The forms are those of `graphql-report`, whose runs are in examples/report/runs.txt: line for line, but for the last, how much was
found, which JSON has as records, and but for that of the schema. Left out are runs that cut what is printed, name a file twice or one that is
not there, or have what `graphql-check` does not tell: SARIF, and warnings of what the specification does not allow."""

import re
import shlex
from typing import List, Tuple

import pytest
from conftest import TOP, Repository


LEFT_OUT = re.compile(r"[|<>]|--batch|--help|--version|--max-faults|--quiet|sarif|laxer|none\.graphql|(\S+twice\S+) .*\1")


def runs() -> List[Tuple[str, List[str]]]:
    """The runs over files alone, each with what it prints but for the last line and the status."""
    found: List[Tuple[str, List[str]]] = []
    for line in (TOP / "examples/report/runs.txt").read_text().splitlines():
        if line.startswith("$ "):
            found.append((line[2:], []))
        elif line and not line.startswith("# ") and found:
            found[-1][1].append(line)
    plain = [(command, wanted) for command, wanted in found if command.startswith("./graphql-report") and not LEFT_OUT.search(command.replace(" 2>/dev/null", ""))]
    return [(command.replace(" 2>/dev/null", ""), [it for it in wanted if not re.match(r"\d+ (fault|document)s?\b|schema accepted|\[\d\]$|\{\"(document|schema|summary)\":", it)]) for command, wanted in plain]


@pytest.mark.parametrize("command,wanted", runs())
def test_the_runs_of_graphql_report(command: str, wanted: List[str]) -> None:
    words = shlex.split(command)[1:]
    # what `graphql-check` does without an option
    words = [it for it in words if it != "--warn"] if "--warn" in words else ["--no-warnings", *words]
    options = [it for index, it in enumerate(words) if it.startswith("--") or words[index - 1].startswith("--")]
    documents = [it for it in words if it not in options]
    told = []
    for document in [[it] for it in documents] or [[]]:
        told += Repository(TOP).run("check", *options, *document).lines
    assert told == wanted


def test_the_runs_are_there() -> None:
    assert len(runs()) >= 19
