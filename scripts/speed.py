#!/usr/bin/env python3
"""What checking and writing a pair costs: speed.py PROGRAM [WORD]; a batch: speed.py --batch REPORT; the library for C: speed.py
--library FILE

PROGRAM is the built program of `graphql_checked_program` (`rt run` there leaves it in `out/`). Schemas and documents of several
sizes are written to a folder that is removed again, and PROGRAM answers each pair. A line tells the bytes of both texts, the
instructions that callgrind counts and the most memory that the program held, each less that of the smallest pair, and both by
the byte. With WORD only cases whose names have it are run. It needs valgrind, and `time` as GNU has it.

REPORT is the built program of `graphql_report_program`. It answers batches of 1,000, 10,000 and 100,000 small documents, of which
each tenth is refused, over a schema of 780 types described at length. A line tells the seconds, and the most memory held.

FILE is libgraphql_checked.so, as scripts/c_library makes it. The same documents go over one handle on the same schema, by the
function for C, called from Python, and by the Python package; then that function is called without a document, which tells what a
call from Python costs. A line each tells microseconds of processor time a call, and calls a second."""

import json
import os
import resource
import sys
import tempfile
import time

import counting
import sources

# Six definitions, one of each kind, as # of a schema: an object that implements an interface, with arguments and directives,
# a union, an enum, an input object and a scalar. ~ is the number of the next six.
SIX = '''"""
A thing of the kind numbered #, as it is kept and shown.
"""
interface Thing# {
  "The key by which it is found."
  id: ID!
  "Its name, cut to some length."
  name(length: Int): String
}

"""
The objects of the kind numbered #.
They are listed page by page.
"""
type Object# implements Thing# {
  "The key by which it is found."
  id: ID!
  "Its name, cut to some length."
  name(length: Int): String
  "Objects that belong to it, in pages."
  parts(first: Int = 10, after: String, by: Choice#, where: Filter#): [Object~!]!
  "When it was made."
  madeAt: Moment#
  "What it stands for."
  stands: Any# @deprecated(reason: "Ask for its parts.")
}

"All that the object numbered # can stand for."
union Any# = Object# | Object~

"In which order objects are listed."
enum Choice# {
  "The newest first."
  NEWEST
  OLDEST
  BY_NAME @deprecated
}

"Which objects are listed."
input Filter# {
  "Whose name has this text."
  name: String = "any"
  choice: Choice# = NEWEST
  all: [Filter#!]
}

"A moment, to the second."
scalar Moment# @specifiedBy(url: "https://example.org/moment")

'''

# Six definitions as large services describe theirs: each member has a description on lines of its own, lists are pages. # is
# the number of the six, ~ that of the next.
DESCRIBED = '''"""
Represents an item of the kind # that a member of an organization keeps in one of its spaces.
"""
type Item# implements Node {
  """
  Identifies the date and time when the object was created.
  """
  createdAt: DateTime!

  """
  Identifies the primary key from the database.
  """
  databaseId: Int

  """
  The object's globally unique identifier, by which it can be found again.
  """
  id: ID!

  """
  Indicates whether the viewer has permission to change this object.
  """
  viewerCanUpdate: Boolean!

  """
  The HTTP path for this object, without the name of its host.
  """
  resourcePath: URI!

  """
  The state of the item, whether it was closed, and why it was.
  """
  state: ItemState#!

  """
  A list of comments associated with the item, the oldest first, in pages.
  """
  comments(
    """
    Returns the elements in the list that come after the specified cursor.
    """
    after: String

    """
    Returns the elements in the list that come before the specified cursor.
    """
    before: String

    """
    Returns the first _n_ elements from the list.
    """
    first: Int

    """
    Returns the last _n_ elements from the list.
    """
    last: Int

    """
    Ordering options for the elements that are returned from the list.
    """
    orderBy: ItemOrder#
  ): ItemConnection~!

  """
  Identifies the date and time when the object was last updated.
  """
  updatedAt: DateTime! @deprecated(reason: "General type updated timestamps will eventually be replaced by specific ones.")
}

"""
The connection type for items of the kind #.
"""
type ItemConnection# {
  """
  A list of edges, each with a cursor and the item at its end.
  """
  edges: [ItemEdge#]

  """
  A list of nodes, which are the items themselves.
  """
  nodes: [Item#]

  """
  Identifies the total count of items in the connection.
  """
  totalCount: Int!
}

"""
An edge in a connection.
"""
type ItemEdge# {
  """
  A cursor for use in pagination.
  """
  cursor: String!

  """
  The item at the end of the edge.
  """
  node: Item#
}

"""
The possible states of an item of the kind #.
"""
enum ItemState# {
  """
  An item that has been closed since its work was done.
  """
  CLOSED

  """
  An item that is still open, and that members can take.
  """
  OPEN

  """
  An item that has been closed by merging what it asked for.
  """
  MERGED
}

"""
Ways in which lists of items can be ordered upon return.
"""
input ItemOrder# {
  """
  The direction in which to order items by the specified field.
  """
  direction: ItemState# = OPEN

  """
  The field in which to order items by, the date of creation if none is given.
  """
  field: String
}

"""
Types that can be requested of items of the kind #.
"""
union ItemOrNext# = Item# | Item~

'''

# What they all refer to.
COMMON = """type Query {
  "An object by its key."
  object(id: ID!): Item0
}

"An object with an ID."
interface Node {
  "ID of the object."
  id: ID!
}

scalar DateTime
scalar URI

"""

# Ten selections of a document, as #.
TEN = """  k#: object(id: "#") {
    id
    name(length: 20)
    parts(first: 3, by: NEWEST, where: { name: "x" }) {
      id
      more: parts(first: $first) @include(if: $deep) {
        id
      }
    }
    ... on Thing0 {
      id
    }
  }
"""

SMALL = "{ object(id: 1) { id name } }\n"

SMALL_DESCRIBED = "{ object(id: 1) { id comments(first: 3) { totalCount nodes { id state } } } }\n"


def schema(types):
    """A schema of some number of types."""
    count = max(types // 6, 1)
    six = (SIX.replace("#", str(i)).replace("~", str((i + 1) % count)) for i in range(count))
    return 'type Query {\n  "An object by its key."\n  object(id: ID!): Object0\n}\n\n' + "".join(six)


def described(types):
    """A schema of some number of types, with long descriptions."""
    count = max(types // 6, 1)
    return COMMON + "".join(DESCRIBED.replace("#", str(i)).replace("~", str((i + 1) % count)) for i in range(count))


def document(selections):
    """A document of some number of selections."""
    ten = (TEN.replace("#", str(i)) for i in range(selections // 10))
    return "query All($first: Int = 5, $deep: Boolean! = true) {\n" + "".join(ten) + "}\n"


def in_step(size):
    """A schema and a document over all its types, of some number of bytes together, however small."""
    count = max(size // 82, 1)
    types = "".join(f"type T{i} {{ a: Int b(x: Int): String }} " for i in range(count))
    fields = "".join(f"f{i}: T{i} " for i in range(count))
    selected = "".join(f"f{i} {{ a b(x: {i}) }} " for i in range(count))
    return f"type Query {{ {fields}}} {types}", f"{{ {selected}}}"


CASES = [
    *((f"{size:,} bytes in step", lambda size=size: in_step(size)) for size in (100, 1000, 10000, 100000, 1000000, 10000000)),
    ("1,000 types", lambda: (schema(1000), SMALL)),
    ("10,000 types", lambda: (schema(10000), SMALL)),
    ("100,000 types", lambda: (schema(100000), SMALL)),
    ("780 types, described at length", lambda: (described(780), SMALL_DESCRIBED)),
    ("7,800 types, described at length", lambda: (described(7800), SMALL_DESCRIBED)),
    ("1,000 types, 1,000 selections", lambda: (schema(1000), document(1000))),
    ("1,000 types, 10,000 selections", lambda: (schema(1000), document(10000))),
    ("10,000 types, 1,000 selections", lambda: (schema(10000), document(1000))),
    ("10,000 types, 10,000 selections", lambda: (schema(10000), document(10000))),
]


def cost(program, folder, texts):
    """The instructions and the kilobytes that the program takes for a schema and a document, and its first line."""
    for name, text in zip(("schema", "document"), texts):
        with open(os.path.join(folder, name), "w", encoding="utf-8") as file:
            file.write(text)
    words = [program, "--indent", "two", "document", "schema"]
    # without an environment, which the loader reads
    counted, instructions = counting.Counter(folder, "callgrind").count(words, folder, environment={})
    if instructions is None:
        sys.exit(f"speed.py: callgrind counted nothing: {counted.stderr[-300:]}")
    return instructions, counting.run(words, folder).kilobytes, counted.stdout.split("\n")[0]


def line(number):
    """A line of a batch."""
    field = "statr" if number % 10 == 0 else "state"
    return json.dumps({"id": number, "document": SMALL_DESCRIBED.replace("state", field).replace("3", str(number))}) + "\n"


def batch(program, folder, count):
    """The seconds and the kilobytes that the program takes for a batch of so many lines."""
    with open(os.path.join(folder, "schema"), "w", encoding="utf-8") as file:
        file.write(described(780))
    with open(os.path.join(folder, "lines"), "w", encoding="utf-8") as file:
        file.writelines(line(number) for number in range(1, count + 1))
    begun = time.monotonic()
    with open(os.path.join(folder, "lines"), "rb") as lines:
        done = counting.run([program, "--batch", "--schema", "schema"], folder, stdin=lines)
    seconds = time.monotonic() - begun
    if done.stdout.count("\n") != count:
        sys.exit(f"speed.py: not a line for each: {done.stderr[-300:]}")
    return seconds, done.kilobytes


def batches(program):
    """Prints a line for each batch."""
    with tempfile.TemporaryDirectory() as folder:
        for count in (1000, 10000, 100000):
            seconds, memory = batch(program, folder, count)
            print(f"{count:,} lines: {seconds:.1f} s, {memory:,} KB", flush=True)


def library(path, count=20000):
    """Prints what a schema, a document over it and a call cost by the library at a path."""
    sys.path.insert(0, os.path.join(sources.TOP, "python"))
    import graphql_checked
    from graphql_checked._library import Answer, text_bytes

    used, texts = graphql_checked.Library(path), [json.loads(line(number))["document"] for number in range(1, count + 1)]
    documents = [text_bytes(text.encode(), "q") for text in texts]
    begun = time.process_time()
    schema = graphql_checked.Schema(described(780), library=used)
    opened, function = time.process_time(), used.functions.graphql_checked_check
    handle, answer = schema._handle, Answer()
    statuses = [function(handle, document, answer) for document in documents]
    called = time.process_time()
    reports = [schema.check(text) for text in texts]
    checked = time.process_time()
    for _ in texts:
        function(handle, None, answer)
    empty = time.process_time()
    if statuses != [int(not report) for report in reports] or statuses.count(1) != count // 10:
        sys.exit("speed.py: the answers are not as wanted")
    print(f"schema opened in {opened - begun:.3f} s")
    for name, seconds in (("a call without a document", empty - checked), ("Schema.check", checked - called), ("graphql_checked_check", called - opened)):
        print(f"{name}: {seconds / count * 1e6:.1f} us, {count / seconds:,.0f} a second", flush=True)


def main():
    """Prints a line for each case."""
    if sys.argv[1] == "--library":
        return library(os.path.abspath(sys.argv[2]))
    if sys.argv[1] == "--batch":
        return batches(os.path.abspath(sys.argv[2]))
    program = os.path.abspath(sys.argv[1])
    word = sys.argv[2] if len(sys.argv) > 2 else ""
    resource.setrlimit(resource.RLIMIT_STACK, (resource.RLIM_INFINITY, resource.RLIM_INFINITY))
    with tempfile.TemporaryDirectory() as folder:
        least, held, _ = cost(program, folder, ("type Query { a: Int }", "{ a }"))
        print(f"smallest pair: {least:,} instructions, {held:,} KB")
        for name, make in CASES:
            if word not in name:
                continue
            texts = make()
            size = sum(len(text.encode()) for text in texts)
            instructions, memory, answer = cost(program, folder, texts)
            instructions, memory = instructions - least, (memory - held) * 1024
            print(f"| {name} | {size:,} | {answer} | {instructions:,} | {instructions / size:.1f} | {memory:,} | {memory / size:.1f} |", flush=True)


if __name__ == "__main__":
    main()
