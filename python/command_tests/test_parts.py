"""The parts of the command: patterns of paths, texts in programs, configurations."""

import json
import random
from typing import List, Tuple

import pytest
from conftest import SHOP, Repository
from test_introspection import FULL

from graphql_checked.command.config import nearest, read
from graphql_checked.command.failures import Stop
from graphql_checked.command.globs import expression
from graphql_checked.command.outline import definitions
from graphql_checked.command.sources import File, Source, sources
from graphql_checked.command.typesystem import Types
from graphql_checked.command.typesystem import definitions as type_system
from graphql_checked.command.units import Project
from graphql_checked.command.uses import uses

# what the documentation of minimatch and globby says of each form
PATTERNS = [
    ("*.graphql", ["a.graphql"], ["b/a.graphql", ".a.graphql", "a.graphqls"]),
    ("src/**/*.ts", ["src/a.ts", "src/b/c/a.ts"], ["a.ts", "src/a.tsx", "src/.git/a.ts"]),
    ("src/**", ["src/a", "src/b/c.ts"], ["src", "lib/a"]),
    ("**/*.{ts,tsx}", ["a.ts", "b/a.tsx"], ["a.js"]),
    ("{a,b/{c,d}}.ts", ["a.ts", "b/c.ts", "b/d.ts"], ["b.ts"]),
    ("a?.[jt]s", ["ab.js", "ac.ts"], ["a.js", "ab.cs"]),
    ("a.[!j]s", ["a.ts"], ["a.js"]),
    ("*.+(ts|tsx)", ["a.ts", "a.tsx"], ["a.js", "a."]),
    ("@(a|b).ts", ["a.ts", "b.ts"], ["ab.ts"]),
    ("a.b+c", ["a.b+c"], ["axb+c", "a.bbc"]),
]


@pytest.mark.parametrize("pattern,met,unmet", PATTERNS)
def test_patterns(pattern: str, met: List[str], unmet: List[str]) -> None:
    assert [it for it in met + unmet if expression(pattern).fullmatch(it)] == met


def texts(name: str, program: str) -> List[str]:
    return [it.text.decode() for it in sources(File(name, program.encode()))]


PROGRAMS = [
    ("a.ts", "gql`{ a }`", ["{ a }"]),
    ("a.ts", "x = graphql(`{ a }`), y = gql(/* GraphQL */ `{ b }`)", ["{ a }", "{ b }"]),
    ("a.ts", "graphql<A, B<C>>(`{ a }`)", ["{ a }"]),
    ("a.ts", "/* GraphQL */ `{ a }`; /* GraphQL */ '{ b }'; gql('{ c }')", ["{ a }", "{ b }", "{ c }"]),
    ("a.ts", "`#graphql\n{ a }`; `{ b }`; '#graphql {c}'", ["#graphql\n{ a }"]),
    ("a.ts", "// gql`{ a }`\n/* gql`{ b }` */ 'gql`{ c }`'; mygql`{ d }`; gqlx`{ e }`", []),
    ("a.tsx", "<p>Don't</p>\ngql`{ a }`; <a href='/'>it's</a>; gql`{ b }`", ["{ a }", "{ b }"]),
    ("a.vue", "<template><p>it's</p></template>\n<script>\nconst a = gql`{ a }`\n</script>", ["{ a }"]),
    ("a.js", "a = /`/; b = x / y; c = [/[/`]/]; gql`{ a }`", ["{ a }"]),
    ("a.js", "gql`{ a(b: \"\\\\n \\`\\u0041\\u{1F600}\\x42\") }`", ['{ a(b: "\\n `A😀B") }']),
    ("a.js", "x = `${gql`{ a }`} ${{ b: `}` }} gql`; gql`{ b }`", ["{ a }", "{ b }"]),
    ("a.py", "gql('{ a }'); graphql(\"\"\"{ \"b\" }\"\"\"); x.gql( # why\n r'{ \\c }')", ["{ a }", '{ "b" }', "{ \\c }"]),
    ("a.py", "gql('{ a' # one\n  ' b' \"\"\" c }\"\"\")", ["{ a b c }"]),
    ("a.py", "'gql(\"{ a }\")'; # gql('b')\nmygql('c'); gql(d); '''#graphql\n{ e }'''", ["#graphql\n{ e }"]),
    ("a.py", "gql('{ a(b: \"\\\\n\\'\\u00e9\") }')", ['{ a(b: "\\n\'é") }']),
    ("a.py", "gql(f'query {{ a }} {x}')", ["query { a }  "]),
]


@pytest.mark.parametrize("name,program,wanted", PROGRAMS)
def test_texts_in_programs(name: str, program: str, wanted: List[str]) -> None:
    assert texts(name, program) == wanted


def test_places_in_programs() -> None:
    program = "é; gql`{ a\\`b ${X} c }`; gql('\\u0041B')".encode()
    first, second = sources(File("a.ts", program))
    for source, words in (first, b"{abc"), (second, b"B"):
        for letter in (bytes([it]) for it in words):
            assert source.in_file(source.text.index(letter)) == program.index(letter, program.index(b"`" if source is first else b"0041"))
    assert [program[it.start : it.end] for it in first.inside] == [b"${X}"]
    assert first.in_text(program.index(b"c }")) == first.text.index(b"c }")


def test_holes_between_definitions() -> None:
    (source,) = sources(File("a.ts", b"gql`${A} query { a } ${B} ${C}`"))
    assert (len(source.holes), source.inside) == (3, ())


TEXTS: List[Tuple[str, object]] = [
    ("{ a }", [("query", "", ())]),
    ("query A { a } mutation B @d(a: {b: 1}) { b } subscription { c }", [("query", "A", ()), ("mutation", "B", ()), ("subscription", "", ())]),
    ("query A($a: I = {b: {}}) { ...F a(b: {c: 1}) { ... on T { ...G } ... { ...F } } }", [("query", "A", ("F", "G"))]),
    ("fragment on on T { a }", None),
    ("fragment # on\n fragment on on { query }", [("fragment", "fragment", ())]),
    ('{ a(b: "}{ ...X") c(d: """ } \\""" """) } # }', [("query", "", ())]),
    ("{ a }}", None),
    ("{ a", None),
    ("type A { b: C }", None),
    ("{ a } é", None),
]


@pytest.mark.parametrize("text,wanted", TEXTS)
def test_definitions(text: str, wanted: object) -> None:
    found = definitions(text.encode())
    assert (None if found is None else [(it.kind, it.name, it.spreads) for it in found]) == wanted


def test_each_definition_is_judged() -> None:
    """However fragments are spread over texts: each definition is in a unit, whole, with all fragments that it reaches."""
    chance = random.Random(5)
    for _ in range(200):
        names = [f"F{number}" for number in range(chance.randrange(8))]
        texts_of: List[List[str]] = [[] for _ in range(1 + chance.randrange(4))]
        for name in names:
            spreads = " ".join("..." + chance.choice([*names, "None"]) for _ in range(chance.randrange(3)))
            chance.choice(texts_of).append(f"fragment {name} on T {{ a {spreads} }}")
        for number in range(chance.randrange(4)):
            spreads = " ".join("..." + chance.choice(names) for _ in range(chance.randrange(3)) if names)
            chance.choice(texts_of).insert(0, f"query Q{number} {{ a {spreads} }}")
        project = Project([Source(File("a", it), it) for it in ("\n".join(found).encode() for found in texts_of)])
        judged = set()
        for unit in project.units():
            text, parts = project.text(unit)
            found = definitions(text)
            assert found is not None
            has = {it.name for it in found}
            for it in found:
                assert {name for name in it.spreads if name in project.fragments} <= has
                part = [part for part in parts if part.at <= it.start][-1]
                start = it.start - part.at + part.start
                assert part.source.text[start : start + it.end - it.start] == text[it.start : it.end]
            judged |= {text[it.start : it.end] for it in found}
        assert judged == {line.encode() for found in texts_of for line in found}


def test_texts_that_are_cut_anywhere() -> None:
    """Whatever is typed so far, the parts that read texts end."""
    types = Types.of([FULL.encode(), SHOP.encode()])
    document = 'query A($a: [In!] = {b: "c"} @d(e: 1)) { ...F f: g(h: [{i: J}, $a]) @k { l } ... on M @n { o } } fragment F on P { q }'
    programs = {name: "\n".join(text for other, text, _ in PROGRAMS if other == name) for name, _, _ in PROGRAMS}
    for cut in range(len(FULL)):
        type_system(FULL[:cut].encode())
        assert len(type_system(FULL[cut:].encode())) < 20
    for cut in range(len(document)):
        for text in document[:cut], document[cut:], document[:cut] + document[cut + 1 :]:
            definitions(text.encode())
            assert len(uses(text.encode(), types)) < 40
    for name, program in programs.items():
        data = program.encode()
        for cut in range(len(data)):
            for file in File(name, data[:cut]), File(name, data[cut:]):
                for source in sources(file):
                    assert 0 <= source.in_file(0) <= len(file.data) and 0 <= source.in_file(len(source.text)) <= len(file.data)


def test_each_form_of_configuration(repository: Repository) -> None:
    told = {"schema": ["a.graphql", "b.graphql"], "documents": "src/**", "exclude": ["x"], "extensions": {"graphql-check": {"prelude": "relay"}}}
    yaml = "schema: [a.graphql, b.graphql]\ndocuments: src/**\nexclude: [x]\nextensions: {graphql-check: {prelude: relay}}\n"
    toml = 'schema = ["a.graphql", "b.graphql"]\ndocuments = "src/**"\nexclude = ["x"]\nextensions.graphql-check.prelude = "relay"\n'
    files = {".graphqlrc": yaml, ".graphqlrc.yml": yaml, "graphql.config.yaml": yaml, ".graphqlrc.json": json.dumps(told), "graphql.config.toml": toml}
    for name, text in {**files, "package.json": json.dumps({"graphql": told})}.items():
        config = read(str(repository.write({name: text}).folder / name))
        assert config
        (project,) = config.projects
        assert (project.schema, project.documents, project.exclude, project.preludes) == (["a.graphql", "b.graphql"], ["src/**"], ["x"], ["relay"])


def test_the_nearest_configuration(repository: Repository) -> None:
    repository.write({"package.json": '{"graphql": {"schema": "a"}}', "b/package.json": "{}", "b/c/d.ts": ""})
    config = nearest(str(repository.folder / "b/c"))
    assert config and config.path == str(repository.folder / "package.json")


def test_variables_of_the_environment(repository: Repository, monkeypatch: pytest.MonkeyPatch) -> None:
    monkeypatch.setenv("FOLDER", "there")
    monkeypatch.delenv("NONE", raising=False)
    config = read(str(repository.write({"c.json": '{"schema": "${FOLDER}/${NONE:a.graphql}"}'}).folder / "c.json"))
    assert config and config.projects[0].schema == ["there/a.graphql"]


WRONG = [
    ("c.json", "{", "cannot be read"),
    ("c.yml", "a: [", "is not YAML"),
    ("c.yml", "documents: a", "has no `schema`"),
    ("c.yml", "- a", "is to be an object"),
    ("c.yml", "schema: 5", "`schema` is to be a path"),
    ("c.yml", "schema: https://example.com/graphql", "names a server"),
    ("c.yml", "schema:\n  - https://example.com: {headers: {a: b}}", "names a server"),
    ("c.yml", "projects: {}", "a project under each name"),
    ("c.yml", "projects: {a: {documents: b}}", "project `a` has no `schema`"),
]


@pytest.mark.parametrize("name,text,words", WRONG)
def test_what_is_no_configuration(repository: Repository, name: str, text: str, words: str) -> None:
    repository.write({name: text})
    with pytest.raises(Stop, match=words) as stop:
        read(str(repository.folder / name))
    assert stop.value.status == 2


def test_a_configuration_that_is_a_program(repository: Repository) -> None:
    repository.write({"graphql.config.js": "module.exports = {}"})
    with pytest.raises(Stop, match="is a program"):
        nearest(str(repository.folder))
    assert isinstance(Source(File("a", b""), b"").definitions, list)
