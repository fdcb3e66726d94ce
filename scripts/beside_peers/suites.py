"""The peers' own tests, as far as the packages have them, as pairs.

- gqlparser's package has graphql-js's tests of rules (`validator/imported/spec`), its own tests of schemas and of both parsers.
- graphql-core's package has its tests of rules, over one schema, which its worker prints.
- graphql-js's package has no tests; Debian's source of it has, which is fetched by no ordinary client here.

Of a pair of a rule's tests the whole verdict is judged as that of any pair. Where a test expects faults, the checker is to refuse too,
or a class to say why not; one that expects none is of one rule alone, and others may refuse it."""
import ast
import glob
import os
import re

import yaml

# Over what a document of a parser's test is judged: its syntax alone counts.
ANY = "type Query { a: Int }"

# Texts of the parsers' tests that the checker takes otherwise: what is in them, and why.
OTHERWISE = [
    (r"fragment \w+ ?\(", "slip, 2.8: gqlparser reads variables of fragments, which are no part of October 2021"),
    (r"extend interface \w+ implements", "slip, 3.7.1: gqlparser reads no interfaces in the extension of an interface"),
]


def imported(packages):
    """graphql-js's tests of rules: a schema, a document, and whether faults are expected."""
    folder = packages.path("share/gocode/src/github.com/vektah/gqlparser/validator/imported/spec")
    with open(os.path.join(folder, "schemas.yml"), encoding="utf-8") as file:
        schemas = yaml.safe_load(file)
    for path in sorted(glob.glob(os.path.join(folder, "*.spec.yml"))):
        # these two are of rules that no edition has
        if os.path.basename(path).startswith(("NoDeprecated", "NoSchemaIntrospection")):
            continue
        with open(path, encoding="utf-8") as file:
            for it in yaml.safe_load(file) or []:
                schema = it["schema"]
                yield schemas[schema] if isinstance(schema, int) else schema, it["query"], bool(it["errors"])


def of_core(packages, worker):
    """graphql-core's tests of rules over its common schema."""
    schema = worker.ask([{"own": True}])[0]["schema"]
    # its printer writes interfaces as older editions do
    schema = re.sub(r"implements ([\w, ]+)", lambda found: "implements " + found[1].replace(",", " &"), schema)
    for path in sorted(glob.glob(packages.path("lib/python3/dist-packages/graphql/validation/tests/test_*.py"))):
        with open(path, encoding="utf-8") as file:
            tree = ast.parse(file.read())
        for call in ast.walk(tree):
            name = call.func.id if isinstance(call, ast.Call) and isinstance(call.func, ast.Name) else ""
            if name in ("expect_passes_rule", "expect_fails_rule") and isinstance(call.args[1], ast.Constant):
                yield schema, call.args[1].value, name == "expect_fails_rule"


def of_schemas(packages):
    """gqlparser's tests of schemas."""
    path = packages.path("share/gocode/src/github.com/vektah/gqlparser/validator/schema_test.yml")
    with open(path, encoding="utf-8") as file:
        for group in yaml.safe_load(file).values():
            for it in group:
                yield it["input"], "{ __typename }", bool(it.get("error"))


def of_parsers(packages):
    """gqlparser's tests of parsers: a text, whether it is a schema, and whether a fault is expected."""
    for name in ("query", "schema"):
        with open(packages.path(f"share/gocode/src/github.com/vektah/gqlparser/parser/{name}_test.yml"), encoding="utf-8") as file:
            for group in yaml.safe_load(file).values():
                for it in group:
                    yield it["input"], name == "schema", bool(it.get("error"))


def judged_by_syntax(judges, tally, cases):
    """Whether the checker reads what gqlparser's parsers are to read, and nothing else."""
    groups = [(text, []) if is_schema else (ANY, [text]) for text, is_schema, _ in cases]
    otherwise = 0
    for (text, is_schema, is_wrong), (of_schema, of_documents) in zip(cases, judges.checker.many(groups)):
        faults = of_schema if is_schema else of_documents[0]
        if any(it.rule == "Syntax" for it in faults) != is_wrong:
            found = next((why for pattern, why in OTHERWISE if re.search(pattern, text)), None)
            otherwise += 1
            if not found:
                tally.wrong.append(f"a test of a parser of gqlparser wants {'a fault' if is_wrong else 'none'}: {text!r}: {[str(it) for it in faults]}")
    print(f"suites: gqlparser's tests of parsers: {len(cases)} texts, {otherwise} otherwise")


def unmet(checker, ours, groups, expected):
    """The pairs whose tests expect faults, where the checker tells none."""
    for (schema, documents), (of_schema, of_documents), wanted in zip(groups, ours, expected):
        for text, faults, is_wrong in zip(documents, of_documents, wanted):
            if is_wrong and not faults and not of_schema:
                yield schema, text


def run(judges, tally, packages, judge):
    """Judges the pairs of all suites."""
    core = next(it for it in judges.peers if it.name == "graphql-core")
    for name, cases in (("graphql-js's tests of rules", imported(packages)), ("graphql-core's tests of rules", of_core(packages, core)),
                        ("gqlparser's tests of schemas", of_schemas(packages))):
        by_schema = {}
        for schema, document, is_wrong in cases:
            by_schema.setdefault(schema, []).append((document, is_wrong))
        groups = [(schema, [document for document, _ in pairs]) for schema, pairs in by_schema.items()]
        before = sum(tally.classes.values())
        ours = judge(judges, tally, groups, {})
        count = sum(len(documents) for _, documents in groups)
        found = list(unmet(judges.checker, ours, groups, [[wrong for _, wrong in pairs] for pairs in by_schema.values()]))
        print(f"suites: {name}: {count} pairs, {sum(tally.classes.values()) - before} disagreements with a peer, {len(found)} accepted of which faults are expected", flush=True)
        for schema, text in found:
            print(f"  accepted: {' '.join(text.split())[:300]}")
    judged_by_syntax(judges, tally, list(of_parsers(packages)))
