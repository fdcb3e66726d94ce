"""Answers for graphql-core: python3 worker.py, with the package on PYTHONPATH.

A line on standard input is a list, each of whose items has a schema and documents; the answer is a list with what graphql-core has
against each schema, and against each document over it, nothing where the schema is refused. With `count` the documents
are checked so often, and what is refused is counted. With `own` the answer is the schema of its own tests.
"""
import json
import sys

from graphql import build_ast_schema, parse, validate
from graphql.error import GraphQLError


def told(error):
    """What an error says; one that is not of GraphQL begins with its kind."""
    text = str(error)
    return text if isinstance(error, GraphQLError) or type(error) is Exception else f"{type(error).__name__}: {text}"


def read(text):
    """A schema, and what is against it. Fields are read when they are asked for first, so all types are asked."""
    try:
        return build_ast_schema(parse(text)), []
    except Exception as error:
        return None, [told(error)]


def check(schema, text):
    """What is against a document."""
    try:
        return [told(error) for error in validate(schema, parse(text))]
    except Exception as error:
        return [told(error)]


def own():
    """The schema of its own tests."""
    from graphql.utils.schema_printer import print_schema
    from graphql.validation.tests.utils import test_schema

    return {"schema": print_schema(test_schema)}


def answer(asked):
    """What is said of a line."""
    if asked.get("own"):
        return own()
    schema, faults = read(asked["schema"])
    if asked.get("count"):
        return {"schema": faults, "refused": sum(bool(check(schema, text)) for _ in range(asked["count"]) for text in asked["documents"])}
    return {"schema": faults, "documents": [[] if faults else check(schema, text) for text in asked["documents"]]}


if __name__ == "__main__":
    for line in sys.stdin:
        print(json.dumps([answer(it) for it in json.loads(line)]), flush=True)
