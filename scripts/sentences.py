#!/usr/bin/env python3
"""The sentences of the rules for an editor: scripts/sentences.py [--write] [--check]

--write makes python/graphql_checked/command/rules.json from docs/rulebook.txt: under the name of each rule its sentences, each with its
section of the specification. --check says whether the file is so; the status is then 1 where it is not.
"""
import json
import os
import sys

import rulebook
from sources import TOP

FILE = "python/graphql_checked/command/rules.json"


def made():
    """The text of the file."""
    told = {entry.name: list(entry.said()) for enum in rulebook.entries().values() for entry in enum}
    return json.dumps(told, ensure_ascii=False, indent=1, sort_keys=True) + "\n"


def main(words):
    path = os.path.join(TOP, FILE)
    if "--write" in words:
        with open(path, "w", encoding="utf-8") as file:
            file.write(made())
    with open(path, encoding="utf-8") as file:
        is_so = file.read() == made()
    print(f"sentences: {FILE} {'is' if is_so else 'is not'} what docs/rulebook.txt makes")
    return 1 if "--check" in words and not is_so else 0


if __name__ == "__main__":
    sys.exit(main(sys.argv[1:]))
