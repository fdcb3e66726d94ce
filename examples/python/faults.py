#!/usr/bin/env python3
"""Checks documents over a schema that is held, and prints each fault with its line, column, rule and hint:
faults.py SCHEMA DOCUMENT..."""
import sys

from graphql_checked import Schema


def read(path: str) -> bytes:
    """The text in a file."""
    with open(path, "rb") as file:
        return file.read()


def main(schema_path: str, *paths: str) -> None:
    """Prints what is wrong with each document."""
    with Schema([read(schema_path)], paths=[schema_path]) as schema:
        for path in paths:
            report = schema.check(read(path), path=path)
            print(f"{path}: accepted" if report else report)


if __name__ == "__main__":
    main(*sys.argv[1:])
