"""Tests of scripts/promises.py: what it reads of promises, of sources, and what it refuses."""
import re
import unittest

import promises

HEAD = """
# a comment
==== Reading
---- graphql_read
  intro    What is read.
  says     What is read
      is right
  by       parse, read_all: found, only; Tokens::new (Starts, Ends)
  by       same: fault
  tested   row_building: each form.
"""

LIB, INNER = "crates/a/src/lib.rt", "crates/b/src/lib.rt"


def stated(name, labels=("",), path=LIB, **other):
    return promises.Stated(path, name, labels=labels, **other)


def judged(text, found, relied=None, definitions=None):
    """What the rows of a text name, in these sources, of which users can rely on all, or on what is given."""
    relied = {it.key(): set(it.labels) for it in found} if relied is None else relied
    return promises.Judged(promises.sections_of(text), promises.Sources(found, relied, definitions or {}))


def wrong(text, found, **other):
    """What is wrong in the rows, without their lines."""
    return [re.sub(r"^\S+ ", "", line) for line in judged(text, found, **other).wrong]


def row(by):
    return f"==== Area\n---- a b\n  says     Words\n  by       {by}\n"


class Reading(unittest.TestCase):
    def test_a_section_has_its_words_and_rows(self):
        (section,) = promises.sections_of(HEAD)
        self.assertEqual((section.area, section.crates), ("Reading", ["graphql_read"]))
        self.assertEqual(section.words, {"intro": "What is read.", "tested": "row_building: each form."})
        self.assertEqual([it.says for it in section.rows], ["What is read is right", ""])

    def test_a_row_has_names_with_clauses_and_definitions(self):
        first, second = promises.sections_of(HEAD)[0].rows
        self.assertEqual([[name.word for name in part.names] for part in first.parts], [["parse", "read_all"], ["Tokens::new"]])
        self.assertEqual([part.labels for part in first.parts], [["found", "only"], []])
        self.assertEqual(first.parts[1].names[0].definitions, ["Starts", "Ends"])
        self.assertEqual(second.parts[0].names, first.parts[1].names)

    def test_a_line_without_the_form_is_refused(self):
        for line in ("  byy      parse", "words", "  says"):
            with self.assertRaises(SystemExit):
                promises.sections_of(HEAD + line)


class Sources(unittest.TestCase):
    TEXT = """
/// Makes it. And more.
pub fn make() -> u8
    requires { a }
    ensures made { P result }
    follows * again { Q }
{
}

impl Shown for Thing {
    fn show(&self)
        ensures { R }
    {
    }
}

fn hidden()
    ensures { S }
{
}
"""

    def test_functions_have_their_clauses(self):
        made, shown, hidden = promises.functions_of(LIB, self.TEXT)
        self.assertEqual((made.name, made.labels, made.comment), ("make", ["made", "again"], "Makes it. And more."))
        self.assertEqual((shown.name, shown.also, shown.labels), ("Thing::show", "Shown::show", [""]))
        self.assertEqual([it.is_public for it in (made, shown, hidden)], [True, True, False])

    def test_names(self):
        method = stated("Thing::show", also="Shown::show")
        for word in ("show", "sh*", "Thing::show", "Thing::*", "Shown::show"):
            self.assertTrue(method.answers_to(word), word)
        for word in ("Thing", "how", "Other::show", "impl Thing"):
            self.assertFalse(method.answers_to(word), word)
        self.assertTrue(stated("impl Clone for Thing").answers_to("impl Clone"))
        self.assertFalse(stated("impl Clone for Thing").answers_to("impl Clone for Thin"))


class Refusals(unittest.TestCase):
    def test_what_is_there_is_right(self):
        self.assertEqual(wrong(row("make: made"), [stated("make", ["made"])]), [])

    def test_what_is_not_there(self):
        found = [stated("make", ["made"], text="P"), stated("hide", is_public=False), stated("idle", []), stated("One::is"), stated("Two::is")]
        self.assertEqual(wrong(row("mak"), found), ["`mak` is the name of no function"])
        self.assertEqual(wrong(row("hide"), found), ["`hide` is not public"])
        self.assertEqual(wrong(row("idle"), found), ["`idle` has no contract"])
        self.assertEqual(wrong(row("is"), found), ["`is` is the name of 2: One::is, Two::is"])
        self.assertEqual(wrong(row("make: mad"), found), ["`mad` is no clause of `make`"])
        self.assertEqual(wrong(row("make (Q)"), found), ["`Q` is in no clause of `make`"])

    def test_a_function_of_another_crate_is_not_there(self):
        self.assertEqual(wrong(row("make"), [stated("make", path="crates/c/src/lib.rt")]), ["`make` is the name of no function"])
        both = [stated("make"), stated("make", path=INNER)]
        self.assertEqual(wrong(row("make"), both), ["`make` is the name of 2: make, make"])
        self.assertEqual(wrong(row("a::make; b::make"), both), [])

    def test_a_definition_may_be_named_by_another(self):
        found = [stated("make", text="Makes a b")]
        self.assertEqual(wrong(row("make (P)"), found, definitions={"Makes": "Makes = P × R"}), [])
        self.assertEqual(wrong(row("make (S)"), found, definitions={"Makes": "Makes = P × R", "P": "P = S"}), ["`S` is in no clause of `make`"])

    def test_a_count_is_of_what_no_other_row_names(self):
        found = [stated("Thing::a"), stated("Thing::b"), stated("Other::a")]
        self.assertEqual(wrong(row("Thing::* 1, a 2"), found), [])
        self.assertEqual(wrong(row("Thing::a; Thing::* 1"), found), [])
        self.assertEqual(wrong(row("Thing::* 3"), found), ["`Thing::*` stands for 2, not 3: Thing::a, Thing::b"])

    def test_impls_are_counted_with_the_parameters_of_their_trait(self):
        self.assertEqual(wrong(row("impl From 3"), [stated("impl From for A", times=2), stated("impl From for B")]), [])


    def test_invariants_are_those_of_types(self):
        self.assertTrue(promises.has_invariant("Name", ["graphql_names"]))  # of its fields
        self.assertTrue(promises.has_invariant("Files", ["graphql_names"]))  # of its model
        self.assertFalse(promises.has_invariant("Device", ["graphql_names"]))
        self.assertFalse(promises.has_invariant("Name", ["graphql_values"]))


class LeftOut(unittest.TestCase):
    def left(self, by, found):
        return [(key[1], labels) for key, labels in judged(row(by), found).left_out()]

    def test_a_function_in_no_row(self):
        found = [stated("make"), stated("Thing::show")]
        self.assertEqual(self.left("make", found), [("Thing::show", [])])
        self.assertEqual(self.left("make; Thing::* 1", found), [])

    def test_a_clause_in_no_row(self):
        found = [stated("make", ["made", "again"])]
        self.assertEqual(self.left("make: made", found), [("make", ["again"])])
        self.assertEqual(self.left("make: made; make: again", found), [])
        self.assertEqual(self.left("make", found), [])

    def test_what_users_cannot_call_may_be_left_out(self):
        self.assertEqual(list(judged(row("make"), [stated("make"), stated("inner", path=INNER)], {(LIB, "make"): {""}}).left_out()), [])


class Page(unittest.TestCase):
    def test_a_section(self):
        found = [stated("make", comment="Makes [`it`]. And more."), stated("Thing::a"), stated("impl Clone for Thing")]
        text = ("==== Area\n---- a\n  inner    b\n  intro    Of all.\n  by       make\n  says     The rest\n"
                "  by       Thing::* 1, impl Clone 1; same\n  tested   row_building: forms.\n  open     the order.\n  last     So.\n")
        page = promises.page_of(judged(text, found))
        self.assertEqual(page.removeprefix(promises.HEAD), (
            "\n## Area\n\n### `a`\n\nOf all. The code is in `b`.\n\n- Makes `it`.\\\n  `make`\n- The rest.\\\n  `Thing::*`, `Clone`; the same\n\n"
            "Tested (`row_building`): forms. Open: the order. So.\n"))

    def test_crates_have_one_section_each(self):
        sections = promises.sections_of("==== Area\n---- a b\n  intro    x\n---- b d\n  intro    x\n")
        self.assertEqual(sorted(set(promises.wrong_crates(sections, ["a", "b", "c"]))), [
            "docs/promises.txt: `b` is in 2 sections", "docs/promises.txt: `c` is in 0 sections", "docs/promises.txt: `d` is no crate of crates.txt"])


if __name__ == "__main__":
    unittest.main()
