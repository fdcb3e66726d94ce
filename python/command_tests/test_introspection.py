"""Schemas that are introspection results, and their way back through graphql-js."""

import json
import os
import shutil
import subprocess
import sys
from typing import Any, Dict

import pytest
from conftest import SHOP, TOP, Repository

from graphql_checked import Schema
from graphql_checked.command.introspection import sdl

FULL = r'''
"""A schema
  with an indent, "quotes" and \ in it."""
schema { query: Root subscription: Events }
directive @tag(name: String! = "a\"b", old: Int @deprecated(reason: "two\nlines")) repeatable on FIELD_DEFINITION | OBJECT | QUERY
"""
An instant.
"""
scalar Time @specifiedBy(url: "https://example.com/time")
scalar Any
interface Node { "its \"id\"" id: ID! }
interface Named implements Node { id: ID! name: String }
"not the root of mutations"
type Mutation implements Named & Node { id: ID! name: String @deprecated }
type Root {
  field("what is asked" filter: Filter = {words: ["a", "😀"], level: HIGH, deep: {level: LOW}}, first: Int = 10 @deprecated(reason: "use `last`")): [[Found!]!]
  old: Time @deprecated(reason: "gone \\ \u0007")
}
type Events { changed: Any }
union Found = Mutation | Root
enum Level { LOW "most" HIGH OLD @deprecated(reason: "low") }
input Filter { words: [String!]! = ["x"], level: Level = LOW, deep: Filter, old: Boolean @deprecated }
'''


def introspected(text: str, *words: str) -> Dict[str, Any]:
    """What graphql-js tells of a schema text."""
    node = {**os.environ, "NODE_PATH": "/usr/share/nodejs"}
    done = subprocess.run(["node", str(TOP / "python/command_tests/introspect.js"), *words], input=text.encode(), capture_output=True, env=node, check=True)
    told: Dict[str, Any] = json.loads(done.stdout)
    return told


def sorted_types(told: Dict[str, Any]) -> Dict[str, Any]:
    """The result with types and directives in the order of their names."""
    schema = told["data"]["__schema"]
    for key in ("types", "directives"):
        schema[key].sort(key=lambda it: str(it["name"]))
    for it in schema["types"]:
        (it["possibleTypes"] or []).sort(key=lambda other: str(other["name"]))
    return told


@pytest.mark.parametrize("text", [SHOP, FULL, "type Query { a(b: Float = 1e10): Int }"], ids=["shop", "full", "small"])
def test_the_way_back_through_graphql_js(text: str) -> None:
    assert shutil.which("node"), "node and node-graphql are needed"
    told = introspected(text)
    made = sdl(json.dumps(told).encode()).decode()
    assert sorted_types(introspected(made)) == sorted_types(told)
    with Schema(made) as schema:
        assert sorted_types(introspected(schema.text())) == sorted_types(told), "and through the library"


def test_graphql_core_tells_the_same() -> None:
    """A result of graphql-core, Debian's old one, whose query asks for less."""
    core = pytest.importorskip("graphql")
    if not core.__version__.startswith("2."):
        pytest.skip("another graphql-core")
    program = """
import json, graphql
from graphql.utils.introspection_query import introspection_query
from graphql.utils.build_ast_schema import build_ast_schema
text = open(0).read()
schema = build_ast_schema(graphql.parse(text))
print(json.dumps(graphql.graphql(schema, introspection_query).data))
"""
    text = "schema { query: Query } type Query { a(b: [Int!] = [1, 2], c: E): [T!]! old: U @deprecated(reason: \"no\") } enum E { X Y } type T { q: Query } union U = T | Query"
    answers = []
    for _ in "there", "back":
        done = subprocess.run([sys.executable, "-c", program], input=text.encode(), capture_output=True, check=True)
        answers.append(sorted_types({"data": json.loads(done.stdout)}))
        text = sdl(done.stdout).decode()
    assert answers[0] == answers[1]


def test_a_document_over_an_introspection_result(repository: Repository) -> None:
    repository.write({".graphqlrc.yml": "schema: schema.json\ndocuments: a.graphql\n", "schema.json": json.dumps(introspected(SHOP)), "a.graphql": "{ nope product }"})
    done = repository.run("check", "--format", "short")
    assert (done.status, done.lines) == (1, ["a.graphql:1:3: error[UndefinedField]: `Query` has no field `nope`"] + done.lines[1:])
    repository.write({"a.graphql": "{ product(id: 1) { name } }"})
    assert repository.run().told == "1 document accepted\n"


def test_a_fault_in_an_introspection_result_has_its_path(repository: Repository) -> None:
    told = introspected("type Query { a: Int } interface I { b: Int } type T implements I { a: Int }", "unchecked")
    repository.write({"schema.json": json.dumps(told)})
    done = repository.run("check", "--schema", "schema.json", "--format", "short")
    # 3.6: an object has each field of its interfaces
    assert (done.status, done.lines) == (1, ["schema.json: error[MissingInterfaceField]: type `T` does not satisfy interface `I`: missing field `b`"])


@pytest.mark.parametrize("text", ["{}", "[]", "{", '{"data": {"__schema": {"types": [{"kind": "OBJECT"}]}}}', '{"__schema": {"types": [{"kind": "NEW", "name": "A"}]}}'])
def test_what_is_no_introspection_result(repository: Repository, text: str) -> None:
    done = repository.write({"schema.json": text}).run("check", "--schema", "schema.json")
    assert done.status == 3 and done.told.startswith("graphql-check: schema.json: is no introspection result: ")
