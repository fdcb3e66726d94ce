"""Warnings of what is deprecated (the specification's 3.13.3), which are those of `graphql-report`."""

import json

import pytest
from conftest import Repository

from graphql_checked.command.forms import FORMS

SCHEMA = """
directive @show(since: Int @deprecated(reason: "long"), as: E) on FIELD | QUERY | FRAGMENT_DEFINITION | VARIABLE_DEFINITION
type Query {
  old: Int @deprecated(reason: "use `new`")
  new(a: Int @deprecated, b: In, c: [E!], d: [[In!]]): Query
}
extend type Query { more: Int @deprecated(reason: "gone") }
enum E { X Y @deprecated(reason: \"\"\"two\"\"\") }
input In { f: Int @deprecated g: In e: E }
"""


# a mark before each use, in the order of the words below
MARKED = """gql`query Q($e: E = ^Y @show(^since: 1), $l: [[In!]] = [[{ ^f: 1, e: ^Y }]]) @show(as: ^Y) {
  ^old @show(^since: 2)
  new(^a: 1, c: [X, ^Y, $e], b: { g: { ^f: 1, e: ^Y } }, d: $l) { alias: ^old ... { ^more } ...F }
}
fragment F on Query @show(^since: 3) { ok: new { new { ^old } } }`"""
VALUE = "DeprecatedEnumValue]: `E.Y` is deprecated: two"
INPUT_FIELD = "DeprecatedInputField]: `In.f` is deprecated: No longer supported"
ARGUMENT = "DeprecatedArgument]: `Query.new(a:)` is deprecated: No longer supported"
OF_DIRECTIVE = "DeprecatedArgument]: `@show(since:)` is deprecated: long"
OLD = "DeprecatedField]: `Query.old` is deprecated: use `new`"
MORE = "DeprecatedField]: `Query.more` is deprecated: gone"
WORDS = [VALUE, OF_DIRECTIVE, INPUT_FIELD, VALUE, VALUE, OLD, OF_DIRECTIVE, ARGUMENT, VALUE, INPUT_FIELD, VALUE, OLD, MORE, OF_DIRECTIVE, OLD]


@pytest.fixture
def deprecated(repository: Repository) -> Repository:
    """A folder with the schema, and a document with each use."""
    return repository.write({"s.graphql": SCHEMA, ".graphqlrc.json": '{"schema": "s.graphql", "documents": "*.ts"}', "a.ts": MARKED.replace("^", "")})


def test_each_use_is_warned_of(deprecated: Repository) -> None:
    places = []
    for number, line in enumerate(MARKED.split("\n"), 1):
        parts = line.split("^")
        places += [f"{number}:{len(''.join(parts[:index])) + 1}" for index in range(1, len(parts))]
    done = deprecated.run("check", "--format", "short")
    assert done.lines == [f"a.ts:{place}: warning[{words}" for place, words in zip(places, WORDS)]
    assert (len(places), len(WORDS), done.status, done.told) == (15, 15, 0, "1 document accepted, 15 warnings\n")
    assert deprecated.run("check", "--no-warnings").told == "1 document accepted\n"


@pytest.mark.parametrize("form", FORMS)
def test_warnings_that_are_denied(deprecated: Repository, form: str) -> None:
    told, denied = deprecated.run("check", "--format", form), deprecated.run("check", "--format", form, "--deny", "warnings")
    assert (told.status, denied.status) == (0, 1)
    assert (denied.out, denied.told) == (told.out, "1 document accepted, 15 warnings\n")
    deprecated.write({"a.ts": "gql`{ new { __typename } }`"})
    done = deprecated.run("check", "--format", form, "--deny", "warnings")
    assert (done.status, done.told) == (0, "1 document accepted\n")
    assert deprecated.run("check", "--deny", "warnings", "--no-warnings").status == 2
    assert deprecated.run("check", "--deny", "faults").status == 2


def test_the_names_in_sarif(deprecated: Repository) -> None:
    (run,) = json.loads(deprecated.run("check", "--format", "sarif").out)["runs"]
    assert [it["id"] for it in run["tool"]["driver"]["rules"]] == ["DeprecatedArgument", "DeprecatedEnumValue", "DeprecatedField", "DeprecatedInputField"]
    assert [(it["level"], it["ruleId"]) for it in run["results"]] == [("warning", words.split("]")[0]) for words in WORDS]


def test_of_a_file_that_is_refused_the_faults_alone_are_told(deprecated: Repository) -> None:
    deprecated.write({"a.ts": "gql`{ old nope }`", "b.ts": "gql`{ old }`"})
    done = deprecated.run("check", "--format", "short")
    assert [line.split("]")[0] for line in done.lines] == ["a.ts:1:11: error[UndefinedField", "b.ts:1:7: warning[DeprecatedField"]
    assert (done.status, done.told) == (1, "1 fault in 1 file, 2 documents checked, 1 warning\n")


# the value of a string is that of the specification's 2.9.4
REASONS = [
    ("@deprecated", "No longer supported"),
    ("@deprecated(reason: null)", "No longer supported"),
    ('@deprecated(reason: "")', ""),
    ('@ deprecated (reason: "a \\" \\\\ \\/ \\u00e9\\tb")', 'a " \\ / é\tb'),
    ('@deprecated(reason: """\n    one \\"""\n\n      two\r\n  """)', 'one """\n\n  two'),
    ('@deprecated(reason: """  one\n  two""")', "  one\ntwo"),
]


@pytest.mark.parametrize("given,reason", REASONS)
def test_reasons(repository: Repository, given: str, reason: str) -> None:
    repository.write({"s.graphql": f"type Query {{ a: Int {given} }}", "d.graphql": "{ a }"})
    (line,) = repository.run("check", "--format", "json", "--schema", "s.graphql", "d.graphql").lines
    told = json.loads(line)
    assert (told["message"], told["fields"]) == (f"`Query.a` is deprecated: {reason}", {"coordinate": "Query.a", "reason": reason})
