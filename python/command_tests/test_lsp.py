"""`graphql-check lsp`, asked by a client that speaks the protocol, and by neovim."""

import json
import shutil
import subprocess
import sys
from pathlib import Path
from typing import Any, Dict, Iterator, List, Optional

import pytest
from conftest import SHOP, Repository

from graphql_checked.command.protocol import read_message

A = "query A($id: ID!) {\n  product(id: $id) { nmae ...Price }\n}\n"
B = "// é\n/* 😀 */ const b = gql`fragment Price on Product { price(currency: USD) }`; const c = gql`{ product(id: 1) { ...Price é } }`\n"


class Client:
    """A client of the server."""

    def __init__(self, shop: Repository) -> None:
        self.folder, self.number, self.version = shop.folder, 0, 0
        self.notices: List[Dict[str, Any]] = []
        words = [sys.executable, "-m", "graphql_checked", "lsp", "--stdio"]
        self.server = subprocess.Popen(words, cwd="/", env=shop.environment, stdin=subprocess.PIPE, stdout=subprocess.PIPE)
        self.capabilities = self.ask("initialize", {"rootUri": self.uri(""), "capabilities": {}})["capabilities"]
        self.tell("initialized", {})

    def uri(self, name: str) -> str:
        return (self.folder / name).as_uri()

    def send(self, message: Dict[str, Any]) -> None:
        data = json.dumps({"jsonrpc": "2.0", **message}).encode()
        assert self.server.stdin
        self.server.stdin.write(b"Content-Length: %d\r\n\r\n%s" % (len(data), data))
        self.server.stdin.flush()

    def tell(self, method: str, params: Any) -> None:
        self.send({"method": method, "params": params})

    def message(self) -> Dict[str, Any]:
        assert self.server.stdout
        found = read_message(self.server.stdout)  # type: ignore[arg-type]
        assert found
        return found

    def answer(self, method: str, params: Any) -> Dict[str, Any]:
        self.number += 1
        self.send({"id": self.number, "method": method, "params": params})
        while True:
            found = self.message()
            if found.get("id") == self.number:
                return found
            self.notices.append(found)

    def ask(self, method: str, params: Any) -> Any:
        return self.answer(method, params)["result"]

    def diagnostics(self, name: str) -> List[Dict[str, Any]]:
        """What is told of this version of a file."""
        while True:
            for index, it in enumerate(self.notices):
                told = it["params"]
                if it["method"] == "textDocument/publishDiagnostics" and (told["uri"], told.get("version")) == (self.uri(name), self.version):
                    del self.notices[: index + 1]
                    listed: List[Dict[str, Any]] = told["diagnostics"]
                    return listed
            self.notices.append(self.message())

    def open(self, name: str, text: Optional[str] = None) -> List[Dict[str, Any]]:
        text = (self.folder / name).read_text() if text is None else text
        self.version += 1
        self.tell("textDocument/didOpen", {"textDocument": {"uri": self.uri(name), "languageId": "graphql", "version": self.version, "text": text}})
        return self.diagnostics(name)

    def change(self, name: str, text: str) -> List[Dict[str, Any]]:
        self.version += 1
        self.tell("textDocument/didChange", {"textDocument": {"uri": self.uri(name), "version": self.version}, "contentChanges": [{"text": text}]})
        return self.diagnostics(name)

    def at(self, method: str, name: str, line: int, character: int) -> Any:
        return self.ask(f"textDocument/{method}", {"textDocument": {"uri": self.uri(name)}, "position": {"line": line, "character": character}})

    def formatted(self, name: str) -> Optional[str]:
        found = self.ask("textDocument/formatting", {"textDocument": {"uri": self.uri(name)}, "options": {"tabSize": 2, "insertSpaces": True}})
        return found and str(found[0]["newText"])

    def close(self) -> None:
        assert self.ask("shutdown", None) is None
        self.tell("exit", None)
        assert self.server.wait(20) == 0


@pytest.fixture
def client(shop: Repository) -> Iterator[Client]:
    """A client of a server over the shop with two documents."""
    shop.write({"src/a.graphql": A, "src/b.ts": B})
    found = Client(shop)
    yield found
    found.close()


def column(line: str, words: str) -> int:
    """Where words begin in a line, in units of UTF-16."""
    return len(line[: line.index(words)].encode("utf-16-le")) // 2


def places(found: List[Dict[str, Any]]) -> List[object]:
    return [(it["code"], it["range"]["start"]["line"], it["range"]["start"]["character"], it["range"]["end"]["character"]) for it in found]


def test_diagnostics_while_one_types(client: Client) -> None:
    assert places(client.open("src/a.graphql")) == [("UndefinedField", 1, 21, 25)]
    # the fault in the fragment's file is told there; columns are units of UTF-16
    line = B.split("\n")[1]
    assert places(client.open("src/b.ts")) == [("Syntax", 1, column(line, "é }"), column(line, "é }"))]
    assert client.change("src/a.graphql", A.replace("nmae", "name")) == []
    assert places(client.change("src/b.ts", B.replace("USD", "GBP").replace("...Price é", "name"))) == [("UndefinedEnumValue", 1, column(line, "USD"), column(line, "USD") + 3)]
    assert client.change("src/b.ts", B.replace("...Price é", "name")) == []


def test_a_hint_is_a_code_action(client: Client) -> None:
    (told,) = client.open("src/a.graphql")
    assert told["message"] == "`Product` has no field `nmae`\ndid you mean `name`?"
    uri = client.uri("src/a.graphql")
    (action,) = client.ask("textDocument/codeAction", {"textDocument": {"uri": uri}, "range": told["range"], "context": {"diagnostics": [told]}})
    assert action["kind"] == "quickfix" and action["edit"]["changes"] == {uri: [{"range": told["range"], "newText": "name"}]}


def test_a_hint_replaces_the_name_of_an_argument_alone(client: Client) -> None:
    client.open("src/a.graphql")
    (told,) = client.change("src/a.graphql", '{ search(text: "", frist: 3) { __typename } }')
    (action,) = client.ask(
        "textDocument/codeAction", {"textDocument": {"uri": client.uri("src/a.graphql")}, "range": told["range"], "context": {"diagnostics": [told]}}
    )
    (edit,) = action["edit"]["changes"][client.uri("src/a.graphql")]
    assert (edit["newText"], edit["range"]["start"]["character"], edit["range"]["end"]["character"]) == ("first", 19, 24)


def test_hover(client: Client) -> None:
    client.open("src/a.graphql")
    # the sentence of the rulebook, with the specification's section
    told = client.at("hover", "src/a.graphql", 1, 22)["contents"]["value"]
    assert "UndefinedField" in told and "(section 5.3.1)" in told
    told = client.at("hover", "src/a.graphql", 1, 3)["contents"]["value"]
    assert "Query.product(id: ID!): Product" in told
    assert "interface Node" in client.at("hover", "schema.graphql", line_of(SHOP, "type Product"), 26)["contents"]["value"]
    assert client.at("hover", "src/a.graphql", 0, 0) is None


def line_of(text: str, words: str) -> int:
    return next(number for number, line in enumerate(text.split("\n")) if words in line)


def test_definitions(client: Client) -> None:
    client.open("src/a.graphql")
    (found,) = client.at("definition", "src/a.graphql", 1, 3)
    assert (found["uri"], found["range"]["start"]) == (client.uri("schema.graphql"), {"line": line_of(SHOP, "product(id"), "character": 2})
    (found,) = client.at("definition", "src/a.graphql", 1, 30)
    assert (found["uri"], found["range"]["start"]["line"]) == (client.uri("src/b.ts"), 1)
    start = column(B.split("\n")[1], "Price")
    assert (found["range"]["start"]["character"], found["range"]["end"]["character"]) == (start, start + 5)
    client.open("src/b.ts")
    (found,) = client.at("definition", "src/b.ts", 1, column(B.split("\n")[1], "Product"))
    assert found["range"]["start"] == {"line": line_of(SHOP, "type Product"), "character": 5}
    (found,) = client.at("definition", "src/b.ts", 1, column(B.split("\n")[1], "USD"))
    assert found["range"]["start"] == {"line": line_of(SHOP, "  USD"), "character": 2}
    (found,) = client.at("definition", "schema.graphql", line_of(SHOP, "orders("), 18)
    assert found["range"]["start"]["line"] == line_of(SHOP, "enum OrderStatus")


def test_a_schema_while_one_types(client: Client) -> None:
    client.open("src/a.graphql", A.replace("nmae", "name"))
    assert client.open("schema.graphql") == []
    found = client.change("schema.graphql", SHOP.replace("orders: [Order", "orders: [Oder").replace("placedAt: DateTime!", "placedAt: Dat!"))
    assert [(it["code"], it["range"]["start"]["line"]) for it in found] == [("UndefinedDefinition", line_of(SHOP, "placedAt"))]
    assert client.change("schema.graphql", SHOP.replace("price(", "prize(")) == []
    assert [it["code"] for it in client.change("src/b.ts", B.replace("é }", "name }"))] == ["UndefinedField"]


def test_formatting(client: Client) -> None:
    client.open("src/a.graphql")
    assert client.formatted("src/a.graphql") is None, "it is refused"
    client.change("src/a.graphql", "query A{product(id:1){name,...Price}}fragment Own on Product{id} {product(id:2){...Own}}".replace("{product(id:2)", "query B{product(id:2)"))
    client.open("src/b.ts", B.replace("é }", "}"))
    wanted = "query A {\n  product(id: 1) {\n    name\n    ...Price\n  }\n}\n\nquery B {\n  product(id: 2) {\n    ...Own\n  }\n}\n\nfragment Own on Product {\n  id\n}\n"
    assert client.formatted("src/a.graphql") == wanted
    client.change("src/a.graphql", "# why\nquery A{product(id:1){name}}")
    assert client.formatted("src/a.graphql") is None, "a comment would be lost"
    assert client.formatted("src/b.ts") is None


def test_what_is_asked_wrongly(client: Client) -> None:
    assert client.answer("textDocument/nosuch", {})["error"]["code"] == -32601
    assert "error" in client.answer("textDocument/hover", {})
    assert client.open("src/new.graphql", "{ nope }")[0]["code"] == "UndefinedField"
    assert client.open("elsewhere.graphql", "{ nope }") == []


def test_neovim_shows_faults_while_one_types(shop: Repository) -> None:
    assert shutil.which("nvim"), "neovim is needed"
    shop.write({"src/a.graphql": A, "src/b.ts": B.replace("é }", "}")})
    script = Path(__file__).parent / "neovim.lua"
    environment = {**shop.environment, "SERVER": json.dumps([sys.executable, "-m", "graphql_checked", "lsp"]), "HOME": str(shop.folder)}
    words = ["nvim", "--headless", "--clean", "-n", "src/a.graphql", "-c", f"luafile {script}"]
    done = subprocess.run(words, cwd=shop.folder, env=environment, stdin=subprocess.DEVNULL, capture_output=True, timeout=120, check=False)
    told = (done.stdout + done.stderr).decode().replace("\r", "").split("\n")
    assert [line for line in told if line.startswith("told: ")] == [
        "told: 2:22 UndefinedField `Product` has no field `nmae`",
        "told: none",
        "told: 2:36 UndefinedFragment cannot find fragment `Pric` in this document",
        f"told: schema.graphql:{line_of(SHOP, 'product(id') + 1}:3",
    ], told
