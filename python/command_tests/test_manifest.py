"""`graphql-check manifest`: trusted documents."""

import hashlib
import json

import pytest
from conftest import SHOP, Repository

from graphql_checked.command.typenames import with_typenames

BODY = "query Page($id: ID!) { product(id: $id) { ...A ...B } } fragment A on Product { name ...C } fragment B on Product { name } fragment C on Product { tags }"


def filled(shop: Repository) -> Repository:
    return shop.write(
        {
            "src/a.graphql": "# a comment\nquery Page($id: ID!) {\n  product(id: $id) { ...A, ...B }\n}\nfragment B on Product { name }",
            "src/c.ts": "gql`fragment C on Product { tags }`; gql`fragment A on Product { name ...C }`; gql`mutation Do { setStatus(order: 1, status: PAID) { id } }`",
        }
    )


def test_the_form_of_apollo(shop: Repository) -> None:
    """The members that Apollo's documentation of a persisted query manifest names."""
    done = filled(shop).run("manifest")
    told = json.loads(done.out)
    assert (done.status, list(told), told["format"], told["version"]) == (0, ["format", "version", "operations"], "apollo-persisted-query-manifest", 1)
    assert [(it["name"], it["type"]) for it in told["operations"]] == [("Do", "mutation"), ("Page", "query")]
    assert told["operations"][1]["body"] == BODY
    assert told["operations"][1]["id"] == hashlib.sha256(BODY.encode()).hexdigest()


# what the documentation and the code of Apollo Client's `addTypenameToDocument` say: last in each selection set but those of
# operations, and those that have a field of introspection
TYPENAMES = [
    ("query A { a(b: {c: 1}) { d } }", "query A { a(b: {c: 1}) { d __typename } }"),
    ("{ a { ... on T { b } ...F ... { c } } }", "{ a { ... on T { b __typename } ...F ... { c __typename } __typename } }"),
    ("query A { a { __typename b { t: __typename } c { __typename: d } } }", "query A { a { __typename b { t: __typename } c { __typename: d __typename } } }"),
    ("{ __schema { types { name } } }", "{ __schema { types { name __typename } __typename } }"),
    ("fragment F on T { a { ... on __T { b } } } query Q($a: I = {b: 1}) @d(e: {f: 1}) { a }", "fragment F on T { a { ... on __T { b __typename } __typename } __typename } query Q($a: I = {b: 1}) @d(e: {f: 1}) { a }"),
    ("query query { fragment { query } } fragment fragment on query { on { a } }", "query query { fragment { query __typename } } fragment fragment on query { on { a __typename } __typename }"),
]


@pytest.mark.parametrize("text,wanted", TYPENAMES)
def test_typenames(text: str, wanted: str) -> None:
    assert with_typenames(text.encode()).decode().split() == wanted.split()


def test_a_manifest_with_typenames(shop: Repository) -> None:
    body = json.loads(filled(shop).run("manifest", "--typename").out)["operations"][1]["body"]
    assert body.startswith("query Page($id: ID!) { product(id: $id) { ...A ...B __typename } } fragment A on Product { name ...C __typename }")


def test_the_form_of_relay(shop: Repository) -> None:
    told = json.loads(filled(shop).run("manifest", "--form", "relay").out)
    assert told[hashlib.sha256(BODY.encode()).hexdigest()] == BODY
    assert len(told) == 2 and list(told) == sorted(told)


def test_the_same_bytes_on_each_run_and_however_files_are_cut(shop: Repository) -> None:
    filled(shop)
    first = shop.program("manifest").out
    assert shop.run("manifest").out == first
    whole = (shop.folder / "src/a.graphql").read_text()
    (shop.folder / "src/a.graphql").unlink()
    shop.write({"src/z/b.graphql": "fragment B on Product{name}", "src/z/a.py": f"P = gql('''{whole.split('fragment')[0]}''')"})
    assert shop.run("manifest").out == first


def test_the_same_bytes_on_another_machine(shop: Repository, tmp_path_factory: pytest.TempPathFactory) -> None:
    """In another folder, locale and order of hashes, and with files in another order."""
    filled(shop).write({"src/e.graphql": 'query E { search(text: "é😀") { __typename } }'})
    other = Repository(tmp_path_factory.mktemp("other")).write({"schema.graphql": SHOP, ".graphqlrc.yml": (shop.folder / ".graphqlrc.yml").read_text()})
    for path in sorted((shop.folder / "src").iterdir(), reverse=True):
        other.write({f"src/{path.name}": path.read_bytes()})
    other.environment.update(LC_ALL="C", LANG="C", PYTHONHASHSEED="7", PYTHONIOENCODING="latin-1:replace")
    for form in "apollo", "relay":
        assert other.program("manifest", "--form", form).out == shop.program("manifest", "--form", form).out
        assert "é😀" in shop.run("manifest", "--form", form).out


def test_compared_with_a_stored_one(shop: Repository) -> None:
    filled(shop)
    for form in "apollo", "relay":
        assert shop.run("manifest", "--form", form, "--output", "m.json").status == 0
        done = shop.run("manifest", "--check", "m.json")
        assert (done.status, done.out, done.told) == (0, "", "m.json has these 2 operations\n")
    shop.write({"src/d.graphql": "query More { product(id: 1) { id } }"})
    done = shop.run("manifest", "--check", "m.json")
    assert (done.status, done.out) == (1, "m.json: has not `More` as it is now\n")
    shop.write({"src/d.graphql": "query # more\n Page { product(id: 1) { id } }", "m.json": "[]"})
    assert shop.run("manifest", "--check", "m.json").status == 1, "two operations of one name"
    shop.write({"src/d.graphql": "query D { product(id: 1) { id } }"})
    assert shop.run("manifest", "--check", "m.json").status == 3
    assert shop.run("manifest", "--check", "nosuch.json").status == 3


def test_what_has_no_manifest(shop: Repository) -> None:
    shop.write({"src/a.graphql": "{ product(id: 1) { id } }"})
    done = shop.run("manifest")
    assert (done.status, done.lines) == (1, ["src/a.graphql:1:1: error[Manifest]: an operation of a manifest has a name"])
    shop.write({"src/a.graphql": "query A { nope }"})
    done = shop.run("manifest", "--output", "m.json")
    assert done.status == 1 and not (shop.folder / "m.json").exists()


def test_the_hash_is_that_of_sha256sum(shop: Repository) -> None:
    (first, _) = json.loads(filled(shop).run("manifest").out)["operations"]
    shop.write({"body": first["body"]})
    assert shop.command(["sha256sum", "body"]).out.split()[0] == first["id"]
