"""Tests of scripts/sources.py and of what scripts/crates.py makes of it: crates, definitions, functions and their clauses."""
import tempfile
import unittest

import crates
import pages
import sources

CRATES = """
# read: tokens and parsers

read_tokens: names memchr
read_types: read_tokens # and no more
# a comment of no section
# c: what C calls
the_library staticlib: read_types names
"""


class Crates(unittest.TestCase):
    def test_crates_have_their_sections_and_needs(self):
        found = sources.listed("names:\n" + CRATES)
        self.assertEqual([(it.name, it.area, it.needs, it.is_static) for it in found], [
            ("names", "", [], False), ("read_tokens", "read", ["names", "memchr"], False),
            ("read_types", "read", ["read_tokens"], False), ("the_library", "c", ["read_types", "names"], True)])
        self.assertEqual([it.line() for it in found], ["names:", "read_tokens: names memchr", "read_types: read_tokens", "the_library staticlib: read_types names"])
        self.assertEqual(found[1].words, "tokens and parsers")

    def test_what_is_below_comes_first(self):
        needs = {"a": ["b", "c", "kit"], "b": ["d"], "c": ["d"], "d": []}
        self.assertEqual(sources.all_below("a", needs), ["d", "b", "c", "a"])
        self.assertEqual(sources.all_below("d", needs), ["d"])

    def test_a_section_is_in_the_order_of_needs(self):
        needs = {"a": ["far"], "b": [], "far": ["b"], "c": []}
        self.assertEqual(crates.in_order(["a", "b", "c"], needs), ["b", "a", "c"])

    def test_files_to_begin_with_are_those_before_a_semicolon(self):
        head = ["What it has.", "More. Begin with `lib.rt` and `specs/Lib.antt`; others with `name.rt`."]
        self.assertEqual(crates.begin("graphql_names", head), ["[`lib.rt`](graphql_names/src/lib.rt)", "[`Lib.antt`](graphql_names/specs/Lib.antt)"])
        self.assertEqual(crates.begin("graphql_names", ["What it has."]), [])


class Functions(unittest.TestCase):
    TEXT = '''
/// Says `{`.
#[inline(never)]
pub fn say<T: Fn(u8) -> u8>(words: &[T], end: char) -> bool
    requires { a { b } }
    ensures said { c "}" }
    ensures { d }
{
    end == '}' // a comment with {
}

impl Shown for Thing {
    fn show(&self) -> u8 {
        1
    }
}
'''

    def test_functions_have_comments_and_clauses(self):
        say, show = sources.functions(self.TEXT)
        self.assertEqual((say.name, say.is_public, say.comment), ("say", True, "Says `{`."))
        self.assertEqual([clause[:3] for clause in say.clauses], [("requires", "", "a { b }"), ("ensures", "said", 'c "}"'), ("ensures", "", "d")])
        self.assertEqual((show.name, show.is_public, show.clauses), ("show", False, []))
        self.assertTrue(self.TEXT[say.start : say.end].endswith("{\n}"))

    def test_blocks(self):
        (block,) = sources.blocks(sources.masked(self.TEXT))
        self.assertEqual((block.trait, block.of, block.is_trait), ("Shown", "Thing", False))

    def test_imports(self):
        self.assertEqual(sources.import_of("Rattle.a.specs.B.{C, d as e}"), ("Rattle.a.specs.B", [("C", "C"), ("d", "e")], None))
        self.assertEqual(sources.import_of("Rattle.a.specs.B as in_b;"), ("Rattle.a.specs.B", None, "in_b"))


class Definitions(unittest.TestCase):
    TEXT = """-- What is so.
use Rattle.a.specs.B.{C}
pub use Rattle.a.specs.D
-- it is so,
-- and more
abbrev pub IsSo : Type 0
IsSo = C -- at last
pub data Kind : Type 0 where
  One : Kind
  Two : (n : ℕ) → Kind
"""

    def test_definitions_have_comments_constructors_and_imports(self):
        with tempfile.NamedTemporaryFile("w", suffix=".antt", encoding="utf-8") as file:
            file.write(self.TEXT)
            file.flush()
            specs = sources.Specs(file.name)
        self.assertEqual(list(specs.definitions), ["IsSo", "Kind"])
        self.assertEqual(specs.definitions["IsSo"].comment, "it is so, and more")
        self.assertEqual(specs.definitions["IsSo"].parts, ["abbrev pub IsSo : Type 0", "IsSo = C"])
        self.assertEqual({name: it.name for name, it in specs.owners.items()}, {"One": "Kind", "Two": "Kind"})
        self.assertEqual((specs.imports, specs.again), ([("Rattle.a.specs.B", [("C", "C")], None)], [("Rattle.a.specs.D", None, "D")]))


class Comments(unittest.TestCase):
    """Of which text scripts/pages.py looks at the words."""

    def test_comments_of_a_line(self):
        text = "/// One\n//! Two\n  // Three\n//// no\nlet a = 1; // no\n"
        self.assertEqual(list(pages.comments(text, "//")), ["One", "Two", "Three", "", "", ""])

    def test_comments_of_python(self):
        text = '#!/usr/bin/python3\n"""One\nTwo"""\nname = ["no",\n  "no"]  # Three\ndef f():\n    "Four"\n    return """Five\nSix"""\n'
        self.assertEqual([line.strip() for line in pages.python_comments(text)[1:9]], ["One", "Two", "", "Three", "", "Four", "Five", "Six"])


class Names(unittest.TestCase):
    def test_the_words_of_a_name(self):
        self.assertEqual(pages.words_of("stands_inOne2Two"), " stands in one2 two ")
        self.assertEqual(pages.words_of("IsWayBack"), " is way back ")

    def test_names_with_refused_words(self):
        refused = [(pattern, use) for pattern, use in pages.refused_words() if use in ("cycle", "after")]
        self.assertTrue(any(pattern.search(pages.words_of("IsWayBack")) for pattern, _ in refused))
        self.assertTrue(any(pattern.search(pages.words_of("told_behind")) for pattern, _ in refused))
        self.assertFalse(any(pattern.search(pages.words_of("AwayBackwards")) for pattern, _ in refused))


if __name__ == "__main__":
    unittest.main()
