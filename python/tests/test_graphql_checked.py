"""Tests of the package over a built library: GRAPHQL_CHECKED_LIBRARY=... python3 -m unittest discover python/tests

What is expected comes from the specification, from `docs/rulebook.txt`, and from `examples/report/rules.txt`."""

import copy
import gc
import importlib.util
import json
import os
import pickle
import re
import signal
import sys
import threading
import time
import unittest
from typing import Any, Callable, Dict, Iterator, List, Tuple, Union

TOP = os.path.join(os.path.dirname(os.path.abspath(__file__)), "../..")
sys.path.insert(0, os.path.join(TOP, "python"))

import graphql_checked  # noqa: E402
from graphql_checked import (  # noqa: E402
    Fault,
    Library,
    NotUtf8Error,
    RefusedError,
    Related,
    Report,
    Schema,
    StackError,
    Status,
    build,
    check,
    version,
)

SHOP = "type Query {\n  product: Product\n}\ntype Product { id: ID! price: Int }\n"
FIELD = "type Query { a: Int }"
Text = Union[str, bytes]


class TestPairs(unittest.TestCase):
    """One schema text and a document."""

    def test_accepted(self) -> None:
        report = check(SHOP, "{ product { id } }")
        self.assertTrue(report)
        self.assertTrue(report.accepted)
        self.assertEqual((report.faults, list(report), len(report), str(report)), ((), [], 0, "accepted"))

    def test_refused(self) -> None:
        report = check(SHOP, "{ product {\n  prize } }")
        self.assertFalse(report)
        (fault,) = report
        self.assertIs(report[0], fault)
        fields = {"type_name": "Product", "field_name": "prize"}
        self.assertEqual(
            fault,
            Fault("document", 2, 2, 3, 2, 8, 14, 5, "UndefinedField", "`Product` has no field `prize`", "did you mean `price`?", (), fields),
        )
        self.assertEqual(str(report), "document:2:3: UndefinedField: `Product` has no field `prize` (did you mean `price`?)")

    def test_places_in_the_schema(self) -> None:
        (fault,) = check("type Query { a(b: Int!): Int }", "{ a }")
        self.assertEqual(fault.related, (Related("schema", 1, 16, "the definition"),))
        (fault,) = check("type Query { a: Missing }", "{ a }")
        self.assertEqual((fault.path, fault.text, fault.offset, fault.rule), ("schema", 1, 16, "UndefinedDefinition"))

    def test_places_in_words(self) -> None:
        with Schema(SHOP) as schema:
            self.assertEqual(str(schema.check("{ product }")[0]).split(" ")[:3], ["text", "2:1:3:", "MissingSubselection:"])
            (fault,) = schema.check("{ __type { name } }")
            self.assertEqual(str(fault.related[0]), "<built in>: the definition")
        (fault,) = check("type Query { a(b: Int!): Int }", "{ a }")
        self.assertEqual(str(fault.related[0]), "schema:1:16: the definition")

    def test_columns_are_of_characters(self) -> None:
        (fault,) = check("type Query { a(b: String): Int }", '# \u00e9\r\n{ a(b: "\u00e9") c }')
        self.assertEqual((fault.offset, fault.line, fault.column), (19, 2, 13))

    def test_a_text_that_is_not_read(self) -> None:
        (fault,) = check(SHOP, "{ product { id }")
        self.assertEqual((fault.text, fault.offset, fault.rule), (2, 16, "Syntax"))
        (fault,) = check("", "{ product { id }")
        self.assertEqual((fault.text, fault.offset, fault.rule), (1, 0, "Syntax"))

    def test_texts_that_are_not_utf8(self) -> None:
        pairs: List[Tuple[Text, Text]] = [(SHOP, b"\xff"), (b"\xc3", "{ a }"), ("\ud800", "{ a }")]
        for schema, document in pairs:
            with self.assertRaises(NotUtf8Error):
                check(schema, document)

    def test_a_zero_byte_does_not_end_a_text(self) -> None:
        (fault,) = check(SHOP, "{ product { id } }\0")
        self.assertEqual((fault.offset, fault.rule), (18, "Syntax"))

    def test_what_is_no_text(self) -> None:
        wrong: List[Any] = [5, None, [123], bytearray(b"{ a }"), memoryview(b"{ a }"), b"{ a }"[0]]
        with Schema(FIELD) as schema:
            for text in wrong:
                with self.assertRaises(TypeError):
                    schema.check(text)
                with self.assertRaises(TypeError):
                    Schema(text)
            with self.assertRaises(TypeError):
                schema.check("{ a }", path=5)  # type: ignore[arg-type]
            with self.assertRaisesRegex(TypeError, "an indent is to be int, str or None, not bytes"):
                schema.text(b" ")  # type: ignore[arg-type]
        with self.assertRaisesRegex(TypeError, "a list of str"):
            Schema([FIELD, "extend type Query { b: Int }"], paths="ab")

    def test_nesting_and_stack(self) -> None:
        with self.assertRaises(StackError):
            check(FIELD, "{ a }", nesting=1 << 40)
        with self.assertRaises(StackError):
            check(FIELD, "{ a }", nesting=500, stack=100000)
        self.assertTrue(check(FIELD, "{ a }", nesting=500))
        self.assertTrue(check(FIELD, "{ a }", nesting=500, stack=2 << 20))
        self.assertEqual([fault.rule for fault in check(FIELD, "{ a { b } }", nesting=1)], ["Nesting"])
        wrong: Any
        for wrong in -1, 1 << 63:
            with self.assertRaises(ValueError):
                check(FIELD, "{ a }", nesting=wrong)
        for wrong in 1.5, True, "1":
            with self.assertRaises(TypeError):
                check(FIELD, "{ a }", stack=wrong)

    def test_greatest_number_of_faults(self) -> None:
        self.assertEqual([fault.fields["field_name"] for fault in check(FIELD, "{ b c d }", max_faults=2)], ["b", "c"])

    def test_a_thread_with_little_stack(self) -> None:
        told: List[object] = []

        def work() -> None:
            try:
                check(FIELD, "{ a }", nesting=300)
            except StackError as error:
                told.append(error)
            told.append(check(FIELD, "{ a }", nesting=10).accepted)

        size = threading.stack_size(128 << 10)
        try:
            thread = threading.Thread(target=work)
            thread.start()
        finally:
            threading.stack_size(size)
        thread.join()
        self.assertEqual([str(it) for it in told], ["the thread has too little stack for this nesting", "True"])

    def test_version(self) -> None:
        with open(os.path.join(TOP, "VERSION"), encoding="utf-8") as file:
            told = file.read().strip()
        self.assertEqual((".".join(map(str, version())), graphql_checked.__version__), (told, told))
        self.assertTrue(build().startswith(f"{told} (commit "))

    def test_proved(self) -> None:
        self.assertEqual(graphql_checked.proved, build().endswith(", proved)"))
        self.assertNotEqual(graphql_checked.proved, build().endswith(", not proved)"))


class TestSchemas(unittest.TestCase):
    """Schemas that are kept."""

    def test_texts_and_paths(self) -> None:
        with Schema([SHOP, "extend type Product { name: String }"], paths=["shop", None]) as schema:
            self.assertTrue(schema.check("{ product { id name } }"))
            (fault,) = schema.check("{ product { size } }", path="query")
            self.assertEqual((fault.path, fault.text, fault.offset, fault.line, fault.column), ("query", 3, 12, 1, 13))
            self.assertEqual(schema.check("{ size }")[0].path, None)
            (fault,) = schema.check("{ product { name(a: 1) } }", path="a \0 \ud800")
            self.assertEqual((fault.path, fault.related[0]), ("a \0 \ud800", Related(None, 1, 23, "the definition")))
            self.assertTrue(schema.check("{ product { name } }"), "the schema is unchanged")

    def test_a_refused_schema_carries_its_report(self) -> None:
        with self.assertRaises(RefusedError) as refused:
            Schema([SHOP, "extend type Missing { a: Int }"], paths=["shop", "other"])
        (fault,) = refused.exception.report
        self.assertEqual((fault.path, fault.text, fault.rule), ("other", 2, "OrphanTypeExtension"))
        self.assertIn("`Missing`", str(refused.exception))
        self.assertEqual(pickle.loads(pickle.dumps(refused.exception)).report, refused.exception.report)

    def test_no_texts(self) -> None:
        with self.assertRaises(RefusedError) as refused:
            Schema([])
        self.assertEqual([(fault.rule, fault.line, fault.path) for fault in refused.exception.report], [("QueryRootOperationType", None, None)])
        with self.assertRaises(ValueError):
            Schema([SHOP], paths=["one", "two"])
        with self.assertRaises(ValueError):
            Schema([SHOP], paths=[])

    def test_canonical_texts(self) -> None:
        with Schema("type Query{a:Int}") as schema:
            self.assertEqual(schema.text(None), "type Query { a: Int }")
            self.assertEqual(schema.text(), "type Query {\n  a: Int\n}\n")
            self.assertEqual(schema.document_text("{a}", "\t"), "{\n\ta\n}\n")
            self.assertEqual(schema.document_text("{a}", None), "{ a }")
            with self.assertRaises(RefusedError) as refused:
                schema.document_text("{b}", path="query")
            self.assertEqual(refused.exception.report[0].path, "query")
            indents: List[Union[int, str]] = ["--", -1, " \0"]
            for wrong in indents:
                with self.assertRaises(ValueError):
                    schema.text(wrong)

    def test_long_answers(self) -> None:
        fields = " ".join(f"missing{i}" for i in range(500))
        with Schema("type Query{a:Int}") as schema:
            report = schema.check("{" + fields + "}")
        self.assertEqual((len(report), report[499].message), (500, "`Query` has no field `missing499`"))
        fields = " ".join(f"field{i}: Int" for i in range(2000))
        with Schema("type Query{" + fields + "}") as schema:
            self.assertEqual(schema.text(None), "type Query { " + fields + " }")

    def test_a_closed_schema(self) -> None:
        schema = Schema(FIELD, paths=["a.graphql"])
        self.assertEqual(repr(schema), "<graphql_checked.Schema: 1 text, a.graphql>")
        schema.close()
        schema.close()
        self.assertEqual(repr(schema), "<graphql_checked.Schema: closed, a.graphql>")
        calls: List[Callable[[], object]] = [lambda: schema.check("{a}"), schema.text, lambda: copy.copy(schema)]
        for call in calls:
            with self.assertRaises(ValueError):
                call()

    def test_copies_open_the_texts_again(self) -> None:
        schema = Schema([FIELD, "extend type Query { b: Int }"], paths=["a", "b"], max_faults=1)
        for other in copy.copy(schema), copy.deepcopy(schema), pickle.loads(pickle.dumps(schema)):
            self.assertEqual(len(other.check("{ c d }")), 1)
            other.close()
            self.assertEqual(schema.check("{ c }", path="q"), schema.check("{ c }", path="q"))

    def test_threads_wait_for_each_other(self) -> None:
        answers: List[bool] = []
        with Schema(FIELD) as schema:

            def work() -> None:
                answers.extend(bool(schema.check("{a}" if i % 2 else "{b}")) for i in range(100))

            threads = [threading.Thread(target=work) for _ in range(4)]
            for thread in threads:
                thread.start()
            for thread in threads:
                thread.join()
        self.assertEqual((answers.count(True), answers.count(False)), (200, 200))

    def test_a_signal_handler_asks_too(self) -> None:
        asked: List[int] = []
        with Schema(FIELD) as schema:
            document = "{" + " b" * 900 + "}"
            old = signal.signal(signal.SIGALRM, lambda *_: asked.append(len(schema.check("{ c d }"))))
            try:
                while len(asked) < 50:
                    signal.setitimer(signal.ITIMER_REAL, 0.001)  # once, so that no handler interrupts another
                    self.assertEqual(len(schema.check(document)), 900)
            finally:
                signal.setitimer(signal.ITIMER_REAL, 0)
                signal.signal(signal.SIGALRM, old)
        self.assertEqual(set(asked), {2})

    def test_children_that_are_forked_while_a_thread_checks(self) -> None:
        with Schema(FIELD) as schema:
            is_over = threading.Event()

            def work() -> None:
                while not is_over.is_set():
                    schema.check("{" + " b" * 300 + "}")

            thread = threading.Thread(target=work)
            thread.start()
            try:
                for _ in range(20):
                    child = os.fork()
                    if not child:
                        signal.alarm(20)
                        status = 1
                        try:
                            status = 0 if schema.check("{ a }") and len(schema.check("{ b c }")) == 2 else 2
                            schema.close()
                        finally:
                            os._exit(status)
                    self.assertEqual(os.waitpid(child, 0)[1], 0)
                    time.sleep(0.01)
            finally:
                is_over.set()
                thread.join()

    def test_many_schemas_are_freed(self) -> None:
        for _ in range(200):
            Schema("type Query{a:Int}")
        gc.collect()


class TestNames(unittest.TestCase):
    """What is named alike in the header, in the rulebook and here."""

    def test_statuses_are_those_of_the_header(self) -> None:
        with open(os.path.join(TOP, "include/graphql_checked.h"), encoding="utf-8") as header:
            found = dict(re.findall(r"GRAPHQL_CHECKED_(\w+) = (\d+)", header.read()))
        self.assertEqual(found, {status.name: str(status.value) for status in Status})

    def test_a_library_that_is_not_there(self) -> None:
        with self.assertRaisesRegex(OSError, "GRAPHQL_CHECKED_LIBRARY"):
            Library("/nowhere/libgraphql_checked.so")
        with self.assertRaisesRegex(OSError, "it has no graphql_checked_version"):
            Library("libm.so.6")

    def cases(self) -> Iterator[Tuple[Any, str, Dict[str, str]]]:
        """The cases of `examples/report/rules.txt`, each with its message, and the types of its data."""
        spec = importlib.util.spec_from_file_location("reported", os.path.join(TOP, "scripts/reported.py"))
        assert spec and spec.loader
        reported = importlib.util.module_from_spec(spec)
        spec.loader.exec_module(reported)
        rules = reported.rulebook()
        blocks = re.split(r"\n\n+", reported.read("examples/report/rules.txt").strip())
        common, *cases = [reported.Case(block) for block in blocks if not block.startswith("#")]
        self.assertGreater(len(cases), 60)
        for case in cases:
            case.schema = case.schema if case.schema.plain else common.schema
            yield case, case.message(rules[case.rule][0]), rules[case.rule][1]

    def test_each_rule_has_what_is_told_of_it(self) -> None:
        for case, message, types in self.cases():
            with self.subTest(rule=case.rule):
                case.schema.path, case.document.path = "schema", "document"
                report = check(case.schema.plain, case.document.plain)
                self.assertEqual([fault.rule for fault in report], case.told)
                wanted = case.object(message, types)
                if wanted["hint"]:  # a hint names the texts as the library is told them
                    wanted["hint"] = wanted["hint"].replace("schema.graphql", "text 1")
                self.assertEqual([as_json(fault) for fault in report if fault.rule == case.rule], [wanted])


def as_json(fault: Fault) -> Dict[str, Any]:
    """The fault as `graphql-report --format json` tells it, which says too that it is no warning."""
    told: Dict[str, Any] = json.loads(json.dumps(vars(fault), default=vars))
    line, column = told.pop("end_line"), told.pop("end_column")
    told.pop("text")
    return {**told, "severity": "error", "end": None if line is None else {"line": line, "column": column}}


if __name__ == "__main__":
    unittest.main()
