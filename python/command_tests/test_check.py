"""`graphql-check check`: what is told, where, and with which status."""

import json
import sys
from typing import List

import pytest
from conftest import SHOP, TOP, Repository
from measure import filled

OK = "query A { product(id: 1) { name } }"


def test_a_repository_without_words(shop: Repository) -> None:
    shop.write({"src/a.graphql": OK, "src/deep/b.ts": "const b = gql`query B { product(id: 1) { name } }`"})
    done = shop.program()
    assert (done.status, done.out, done.told) == (0, "", "2 documents accepted\n")
    assert shop.run("check", below="src/deep").told == "2 documents accepted\n"


def test_faults_stand_at_the_places_of_their_files(shop: Repository) -> None:
    line = "  query B { product(id: 1) { ü: name } }"
    shop.write(
        {
            "src/a.graphql": "{\n\tproduct(id: 1) { nmae }\n}",
            "src/b.ts": f"// é\nconst b = gql`\n{line}\n`;\nconst c = 1;",
            "src/c.py": 'B = gql("""\r\nquery C {\r\n  product { name } }\r\n""")\r\n',
        }
    )
    # 5.3.1: no such field; 2.1.9: no such name; 5.4.2.1: an argument is required. A column is a character, also a tab.
    assert shop.short() == [
        "src/a.graphql:2:19: error[UndefinedField]",
        f"src/b.ts:3:{line.index('ü') + 1}: error[Syntax]",
        "src/c.py:3:3: error[RequiredArgument]",
    ]


def places(folder: Repository, *words: str) -> List[str]:
    return [line.split(": error")[0] for line in folder.short(*words)]


def test_a_fault_after_escapes_of_a_template(shop: Repository) -> None:
    line = r'const a = gql`{ search(text: "\`\u00e9\\n") { __typename nope } }`'
    shop.write({"src/a.ts": line})
    assert places(shop) == [f"src/a.ts:1:{line.index('nope') + 1}"]


def test_fragments_are_shared_between_files(shop: Repository) -> None:
    shop.write(
        {
            "src/page.ts": "const q = gql`query Page($id: ID!) { product(id: $id) { ...Card } } ${Card}`",
            "src/card.py": 'CARD = gql("fragment Card on Product { ...Price name }")',
            "src/price.graphql": "fragment Price on Product { price }",
        }
    )
    done = shop.run()
    assert (done.status, done.told) == (0, "3 documents accepted\n")


def test_a_fault_in_a_shared_fragment_is_told_once_in_its_file(shop: Repository) -> None:
    page = "query Page%d { product(id: 1) { ...Price } }"
    shop.write({f"src/{number}.graphql": page % number for number in range(5)})
    shop.write({"src/price.graphql": "fragment Price on Product {\n  prize\n}"})
    assert shop.short() == ["src/price.graphql:2:3: error[UndefinedField]"]


def test_a_fragment_that_no_operation_reaches(shop: Repository) -> None:
    shop.write({"src/a.graphql": OK + "\nfragment Lone on Product { name }", "src/b.graphql": "fragment Other on Product { ...Lone }"})
    # 5.5.1.4: "Defined fragments must be used within a document."
    assert shop.short() == ["src/a.graphql:2:1: error[UnusedFragment]", "src/b.graphql:1:1: error[UnusedFragment]"]


def test_a_variable_is_told_once(shop: Repository) -> None:
    shop.write({"src/a.graphql": "query Q($a: Int) { search(text: $a) { __typename } }"})
    # 5.8.5: its usage is not allowed; that its value is of no string says no more
    assert shop.short() == ["src/a.graphql:1:27: error[DisallowedVariableUsage]"]


def test_the_folder_itself_as_pattern(repository: Repository) -> None:
    repository.write({".graphqlrc.json": '{"schema": "s.graphql", "documents": "."}', "s.graphql": "type Query { a: Int }", "b/c.graphql": "{ a }", "README.md": ""})
    assert repository.run().told == "1 document accepted\n"


def test_a_text_that_is_not_read_has_no_echoes(shop: Repository) -> None:
    shop.write({f"src/{number}.graphql": "query Q%d { product(id: 1) { ...Price } }" % number for number in range(3)})
    shop.write({"src/price.graphql": "fragment Price on Product {\n  price(\n}"})
    # 2.8: arguments end in a bracket
    assert shop.short() == ["src/price.graphql:3:1: error[Syntax]"]


def test_two_fragments_of_one_name(shop: Repository) -> None:
    used = {f"src/{name}.graphql": f"query {name} {{ product(id: 1) {{ ...Price }} }} fragment Price on Product {{ price }}" for name in "ab"}
    assert shop.write(used).run().status == 0, "each is judged with its own"
    shop.write({"src/c.graphql": "{ product(id: 1) { ...Price } }"})
    # 5.5.1.1: fragment names are unique
    assert shop.run().status == 1


def test_conflicts_between_files(shop: Repository) -> None:
    shop.write(
        {
            "src/q.graphql": "{ product(id: 1) { ...A ...B } }",
            "src/a.graphql": "fragment A on Product {\n  price(currency: EUR)\n}",
            "src/b.ts": "gql`\n\nfragment B on Product { price(currency: USD) }`",
        }
    )
    (told,) = [json.loads(line) for line in shop.run("check", "--format", "json").lines]
    assert told["rule"] == "ConflictingFieldArgument"
    here, there = (told["path"], told["line"]), (told["related"][0]["path"], told["related"][0]["line"])
    assert {here, there} == {("src/a.graphql", 2), ("src/b.ts", 3)}


def test_a_template_that_a_program_fills(shop: Repository) -> None:
    shop.write({"src/a.ts": "const a = gql`\n  { product(id: 1) { ${fields} } }\n`"})
    done = shop.run("check", "--format", "short")
    assert (done.status, done.lines) == (
        1,
        ["src/a.ts:2:22: error[Template]: a program fills this place, so that the text is not known and not checked"],
    )


def test_what_is_no_document(shop: Repository) -> None:
    shop.write(
        {
            "src/a.ts": "// gql`{ no }`\nconst s = 'gql`{ no }`', r = /`/;\nconst types = gql`type Query { a: Int }`;\n" + f"const q = gql`{OK}`",
            "src/generated/b.ts": "gql`{ no }`",
            "src/c.py": f"# gql('no')\n'''gql(\"no\")'''\nA = gql('{OK.replace('query A', 'query B')}')",
            "src/node_modules/d.graphql": "{ no }",
        }
    )
    done = shop.run()
    assert (done.status, done.told, done.out) == (0, "2 documents accepted\n", "")


def test_every_form(shop: Repository) -> None:
    shop.write({"src/a.graphql": "{\n  product(id: 1) { nmae }\n}\n"})
    message = "`Product` has no field `nmae`"
    text = ["src/a.graphql:2:20: error[UndefinedField]: " + message, "2 |   product(id: 1) { nmae }", "  |" + " " * 20 + "^^^^", "  = help: did you mean `name`?"]
    assert shop.run("check").lines == text
    assert shop.run("check", "--format", "short").lines == text[:1]
    (line,) = shop.run("check", "--format", "json").lines
    told = json.loads(line)
    assert (told["path"], told["line"], told["column"], told["end"]) == ("src/a.graphql", 2, 20, {"line": 2, "column": 24})
    assert (told["offset"], told["length"], told["rule"], told["message"]) == (21, 4, "UndefinedField", message)
    # GitHub's documented form of a workflow command
    github = f"::error file=src/a.graphql,line=2,endLine=2,col=20,endColumn=24,title=UndefinedField::{message}%0A= help: did you mean `name`?"
    assert shop.run("check", "--format", "github").lines == [github]
    log = json.loads(shop.run("check", "--format", "sarif").out)
    (result,) = log["runs"][0]["results"]
    region = {"startLine": 2, "startColumn": 20, "endLine": 2, "endColumn": 24}
    assert (log["version"], result["ruleId"], result["level"]) == ("2.1.0", "UndefinedField", "error")
    assert result["locations"] == [{"physicalLocation": {"artifactLocation": {"uri": "src/a.graphql"}, "region": region}}]
    shop.write({"src/a.graphql": OK})
    assert json.loads(shop.run("check", "--format", "sarif").out)["runs"][0]["results"] == []


def test_five_of_one_message_and_the_number_of_the_others(shop: Repository) -> None:
    shop.write({"src/a.graphql": "{ product(id: 1) {" + "\n  nmae" * 8 + "\n} }"})
    lines = shop.run("check", "--format", "short").lines
    assert len(lines) == 6 and lines[5] == "and 3 more with this message of UndefinedField"
    assert len(shop.run("check", "--format", "json").lines) == 8


def test_statuses(shop: Repository) -> None:
    shop.write({"src/a.graphql": OK})
    assert shop.run().status == 0
    assert shop.run("check", "--format", "xml").status == 2
    assert shop.run("check", "nosuch.graphql").status == 3
    assert shop.run("check", "--schema", "nosuch.graphql").status == 3
    assert shop.run("check", "--config", "nosuch.yml").status == 3
    assert shop.run("check", "no*.graphql").status == 2
    assert shop.run("check", "--project", "web").status == 2
    shop.write({"src/b.graphql": "{ nope }"})
    assert shop.run().status == 1
    shop.write({"src/c.graphql": b"\xff"})
    done = shop.run()
    assert (done.status, done.told.splitlines()[0]) == (3, "src/c.graphql: is not UTF-8")
    assert [line.split(":")[0] for line in done.lines[:1]] == ["src/b.graphql"], "the others are checked"


def test_statuses_of_what_seldom_happens(shop: Repository, monkeypatch: pytest.MonkeyPatch) -> None:
    shop.write({"src/a.graphql": OK, "s.graphql": "type Query { a: Query b: Int @deprecated }"})
    shop.environment["GRAPHQL_CHECKED_LIBRARY"] = "/nowhere/libgraphql_checked.so"
    done = shop.program()
    assert done.status == 70 and "scripts/c_library makes libgraphql_checked.so" in done.told
    shop.write({"deep.graphql": "{ a " * 9000 + "b" + "}" * 9000})
    assert shop.short("--schema", "s.graphql", "deep.graphql") == [f"deep.graphql:1:{4 * 398 + 1}: error[Nesting]"]
    assert shop.run("check", "--nesting", "900000000000").status == 2

    def spent(*_: object, **__: object) -> None:
        raise MemoryError

    monkeypatch.setattr("graphql_checked.Schema.check", spent)
    done = shop.run()
    assert (done.status, done.told) == (4, "graphql-check: out of memory\n")


def test_nothing_to_check_is_no_success(shop: Repository) -> None:
    done = shop.run()
    assert done.status == 2 and "no document is named by `src/**/*.{graphql,ts,tsx,js,py}`" in done.told
    shop.write({"src/a.ts": "const a = 1;"})
    assert shop.run().status == 2
    shop.write({"src/a.ts": f"gql`{OK}`", ".graphqlrc.yml": "schema: schema.graphql\ndocuments: [src/*.ts, src/*.grahpql]\n"})
    assert shop.run().told == "graphql-check: no document is named by `src/*.grahpql` in .\n1 document accepted\n"


def test_without_a_configuration(repository: Repository) -> None:
    done = repository.run()
    assert done.status == 2 and ".graphqlrc.yml" in done.told
    repository.write({"s.graphql": SHOP, "a.graphql": OK, "b/c.graphql": "{ nope }"})
    assert repository.run("check", "--schema", "s.graphql", "a.graphql").told == "1 document accepted\n"
    assert repository.short("--schema", "s.graphql", "b") == ["b/c.graphql:1:3: error[UndefinedField]"]
    assert repository.run("check", "--schema", "s.graphql").told == "schema accepted\n"
    assert repository.run("check", "--schema", "no*.graphql").status == 2


def test_documents_that_are_named(shop: Repository) -> None:
    shop.write({"src/a.graphql": "{ nope }", "src/b.graphql": "{ nope }", "src/deep/c.graphql": "{ nope }", "other.graphql": "{ nope }"})
    assert places(shop, "src/b.graphql") == ["src/b.graphql:1:3"]
    assert places(shop, "src/deep") == ["src/deep/c.graphql:1:3"]
    assert places(shop, "src/*.graphql") == ["src/a.graphql:1:3", "src/b.graphql:1:3"]
    assert places(shop, str(shop.folder / "src/b.graphql")) == ["src/b.graphql:1:3"]
    assert len(places(shop, "schema.graphql")) == 3
    assert shop.run("check", "other.graphql").status == 2


def test_a_schema_in_many_files(repository: Repository) -> None:
    config = {"schema": ["schema/**/*.graphql", "server/types.ts"], "documents": "a.graphql"}
    repository.write(
        {
            ".graphqlrc.json": json.dumps(config),
            "schema/query.graphql": "type Query { a: A }",
            "schema/types/a.graphql": "extend type Query { b: Int }",
            "server/types.ts": "export const types = gql`\n  type A { c: Mising }\n`; const q = gql`{ a }`",
            "a.graphql": "{ a { c } b }",
        }
    )
    done = repository.run("check", "--format", "short")
    assert (done.status, done.told) == (1, "1 fault in the schema\n")
    assert [line.split(": error")[0] for line in done.lines] == ["server/types.ts:2:15"]
    repository.write({"server/types.ts": "gql`type A { c: Int }`"})
    assert repository.run().told == "1 document accepted\n"


def test_one_pattern_for_schema_and_documents(repository: Repository) -> None:
    config = "schema: src/**/*.{graphql,ts}\ndocuments: src/**/*.{graphql,ts}\n"
    repository.write({".graphqlrc.yml": config, "src/types.graphql": "type Query { a: Int }", "src/a.graphql": "{ a nope }"})
    repository.write({"src/b.ts": "gql`extend type Query { b: Int }`; gql`query B { b ...F }`", "src/f.graphql": "fragment F on Query { a }"})
    assert places(repository) == ["src/a.graphql:1:5"]
    repository.write({"src/a.graphql": "{ a }"})
    assert repository.run().status == 0


def test_several_projects(repository: Repository) -> None:
    config = "projects:\n  web:\n    schema: web.graphql\n    documents: web/*.graphql\n  api:\n    schema: [api.graphql]\n"
    repository.write({".graphqlrc": config, "web.graphql": "type Query { a: Int }", "api.graphql": "type Query { b: C }", "web/a.graphql": "{ a }"})
    done = repository.run("check", "--format", "short")
    assert done.status == 1 and done.told == "web: 1 document accepted\napi: 1 fault in the schema\n"
    assert repository.run("check", "--project", "web").status == 0


def test_since_a_revision(shop: Repository) -> None:
    shop.write({"src/a.graphql": "query A { product(id: 1) { ...P } }", "src/p.ts": "gql`fragment P on Product { nmae }`", "src/b.graphql": "{ nope }"})
    git = ["git", "-c", "user.name=a", "-c", "user.email=a@b.c"]
    for words in ["init", "-q"], ["add", "."], ["commit", "-qm", "first"]:
        assert shop.command([*git, *words]).status == 0
    done = shop.run("check", "--since", "HEAD")
    assert (done.status, done.told) == (0, "0 documents accepted\n")
    shop.write({"src/a.graphql": "query A { product(id: 2) { ...P } }", "src/new.graphql": "query New { nope }"})
    assert places(shop, "--since", "HEAD") == ["src/new.graphql:1:13", "src/p.ts:1:29"]
    shop.write({"src/p.ts": "gql`fragment Other on Product { name }`"})
    assert places(shop, "--since", "HEAD") == ["src/a.graphql:1:28", "src/new.graphql:1:13", "src/p.ts:1:5"], "the fragment is no more"
    shop.write({"schema.graphql": SHOP + "\n"})
    assert len(places(shop, "--since", "HEAD")) == 4
    assert shop.run("check", "--since", "nosuch").status == 2


def test_many_documents_side_by_side(shop: Repository) -> None:
    shop.write({f"src/{number:04}.graphql": OK.replace("name", "nmae" if number % 100 == 7 else "name") for number in range(450)})
    done = shop.run("check", "--format", "short")
    assert [line.split(":")[0] for line in done.lines] == [f"src/{number:04}.graphql" for number in (7, 107, 207, 307, 407)]
    assert done.told == "5 faults in 5 files, 450 documents checked\n"


def test_a_thousand_documents_over_an_introspection_result(repository: Repository) -> None:
    wanted = filled(repository.folder, 1000)
    done = repository.program()
    assert (done.status, done.told) == (1, "10 faults in 10 files, 1000 documents checked\n")
    assert len(wanted) == 10 and sorted(line.split(": error[UndefinedField]")[0] for line in done.lines if ": error" in line) == wanted


def test_a_reader_that_stops(shop: Repository) -> None:
    shop.write({f"src/{number}.graphql": "{ " + "nope " * 900 + "}" for number in range(9)})
    done = shop.command(["bash", "-c", f"'{sys.executable}' -m graphql_checked check --format json | head -n 1 >/dev/null; echo ${{PIPESTATUS[0]}}"])
    assert (done.out, done.told) == ("1\n", "")


@pytest.mark.parametrize("name", sorted(it.name for it in (TOP / "examples/refused").glob("*.graphql")))
def test_the_reports_of_the_examples(shop: Repository, name: str) -> None:
    """The same faults as `graphql-report` tells, whose lines for these files are in examples."""
    wanted = [line for line in (TOP / "examples/refused/faults.txt").read_text().splitlines() if line.startswith(name + ":") and ": accepted" not in line]
    told = shop.write({name: (TOP / "examples/refused" / name).read_bytes()}).run("check", "--schema", "schema.graphql", "--format", "json", name)
    found = [json.loads(line) for line in told.lines]
    hinted = [f"{it['path']}:{it['line']}:{it['column']}: {it['rule']}: {it['message']}" + (f" ({it['hint']})" if it["hint"] else "") for it in found]
    assert hinted == wanted
