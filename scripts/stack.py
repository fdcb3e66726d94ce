#!/usr/bin/env python3
"""How much stack the deepest texts take: stack.py PROGRAM [WORD]

PROGRAM is the built program of `graphql_checked_program` (`rt run` there leaves it in `out/`). For each kind of nesting a pair is
written that opens as many brackets as a limit allows, and the least stack with which PROGRAM answers is found by halving, for the
limits 500 and 1000. A line tells both, in KB, which count the program's arguments too. With WORD only kinds whose names have it are
tried."""

import os
import resource
import subprocess
import sys
import tempfile

# What all pairs but some of the schema's own refer to.
SCHEMA = """scalar Any
input In { in: In, all: [In] }
directive @with(any: Any) repeatable on FIELD | FIELD_DEFINITION
type Query { q: Query, any(value: Any): Int, in(value: In): Int }
"""

DOCUMENT = "{ __typename }\n"

# What several operations share is judged once, by another walk.
SHARED = "query A { ...F } query B { ...F } fragment F on Query "

LIMITS = (500, 1000)


def nested(count, opening, inside, closing):
    """Some text within so many brackets."""
    return opening * count + inside + closing * count


# Each kind: the schema and the document of a number of brackets that are open at once.
KINDS = [
    ("fields", lambda n: (SCHEMA, nested(n - 1, "{ q ", "{ __typename }", " }"))),
    ("inline fragments", lambda n: (SCHEMA, "{ " + nested(n - 1, "... { ", "__typename", " }") + " }")),
    ("inline fragments with conditions", lambda n: (SCHEMA, "{ " + nested(n - 1, "... on Query { ", "__typename", " }") + " }")),
    ("fields of a shared fragment", lambda n: (SCHEMA, SHARED + nested(n - 1, "{ q ", "{ __typename }", " }"))),
    ("fields that stay of a shared fragment", lambda n: (SCHEMA, SHARED + nested(n - 1, "{ q ", "{ ...G }", " }") + " fragment G on Query { __typename }")),
    ("inline fragments of a shared fragment", lambda n: (SCHEMA, SHARED + "{ " + nested(n - 1, "... { ", "...G", " }") + " } fragment G on Query { __typename }")),
    ("lists", lambda n: (SCHEMA, "{ any(value: " + nested(n - 2, "[", "1", "]") + ") }")),
    ("objects", lambda n: (SCHEMA, "{ any(value: " + nested(n - 2, "{ a: ", "1", " }") + ") }")),
    ("input objects", lambda n: (SCHEMA, "{ in(value: " + nested(n - 2, "{ in: ", "null", " }") + ") }")),
    ("input objects in lists", lambda n: (SCHEMA, "{ in(value: " + nested((n - 2) // 2, "{ all: [", "", "] }") + ") }")),
    ("lists in directives", lambda n: (SCHEMA, "{ any @with(any: " + nested(n - 2, "[", "1", "]") + ") }")),
    ("types of variables", lambda n: (SCHEMA, "query ($v: " + nested(n - 1, "[", "Int", "]") + ") { __typename }")),
    ("types of fields", lambda n: (SCHEMA + "extend type Query { deep: " + nested(n - 1, "[", "Int", "]") + " }\n", DOCUMENT)),
    ("default values", lambda n: (SCHEMA + "extend type Query { deep(v: Any = " + nested(n - 2, "[", "1", "]") + "): Int }\n", DOCUMENT)),
    ("default objects", lambda n: (SCHEMA + "extend type Query { deep(v: In = " + nested(n - 2, "{ in: ", "null", " }") + "): Int }\n", DOCUMENT)),
]


def answer(program, folder, limit, stack):
    """The first line that the program writes with so many KB of stack, or nothing where that was too little."""

    def less():
        resource.setrlimit(resource.RLIMIT_CORE, (0, 0))
        resource.setrlimit(resource.RLIMIT_STACK, (stack * 1024, stack * 1024))

    words = [program, "--nesting", str(limit), "document", "schema"]
    try:
        run = subprocess.run(words, cwd=folder, env={}, capture_output=True, text=True, check=False, preexec_fn=less)
    except OSError:
        return ""
    return run.stdout.split("\n")[0] if run.returncode >= 0 else ""


def least(program, folder, limit):
    """The least stack in KB with which the pair is answered, and the answer."""
    low, high = 8, 65536
    told = answer(program, folder, limit, high)
    if not told:
        sys.exit(f"stack.py: no answer with {high} KB")
    while high - low > 4:
        middle = (low + high) // 2
        if answer(program, folder, limit, middle):
            high = middle
        else:
            low = middle
    return high, told


def main():
    """Prints a line for each kind."""
    program = os.path.abspath(sys.argv[1])
    word = sys.argv[2] if len(sys.argv) > 2 else ""
    with tempfile.TemporaryDirectory() as folder:
        for name, make in KINDS:
            if word not in name:
                continue
            found = []
            for limit in LIMITS:
                for file, text in zip(("schema", "document"), make(limit)):
                    with open(os.path.join(folder, file), "w", encoding="utf-8") as out:
                        out.write(text)
                found.append(least(program, folder, limit))
            told = " ".join(sorted({answer for _, answer in found}))
            print("| " + " | ".join([name, *(f"{stack:,}" for stack, _ in found), told]) + " |", flush=True)


main()
