"""Tests of scripts/rulebook.py and scripts/variants.py: how the rulebook is read, what is refused, where parts are, what is written."""
import unittest

import rulebook
import variants

BOOK = """
# a comment
==== DiagnosticData

---- documents

UnusedThing
  valid    A thing is valid only if it is used (5.8)
           A thing is valid only if it is wanted (past 5.9 and 5.10)
  stage    documents
  lasts    no: what is added may use it
  fault    A thing is not used.
  data     name: Name
           location: place
  message  unused thing: `{name}`

SillyThing
  valid    A thing is valid only if it is not silly (6)
  stage    documents
  fault    A thing is silly.
  message  silly
"""


def data(text=BOOK):
    return rulebook.entries(text)["DiagnosticData"]


def wrong(change, by):
    """What is not well formed in the book with a change."""
    assert change in BOOK
    return [line for entry in data(BOOK.replace(change, by)) for line in entry.wrong("DiagnosticData")]


class Reading(unittest.TestCase):
    def test_an_entry(self):
        entry = data()[0]
        self.assertEqual((entry.name, entry.group, entry.stages()), ("UnusedThing", "documents", ["documents"]))
        self.assertEqual([(field.name, field.rust()) for field in entry.data], [("name", "Name"), ("location", "Option<SourceSpan>")])
        self.assertEqual(entry.gaps(), ["name"])
        self.assertEqual(list(entry.said()), ["A thing is valid only if it is used (section 5.8)",
                                              "A thing is valid only if it is wanted (past sections 5.9 and 5.10)"])

    def test_the_rulebook_is_well_formed(self):
        self.assertEqual(wrong("silly", "silly"), [])

    def test_what_is_not_well_formed(self):
        self.assertEqual(wrong("  message  silly\n", ""), ["SillyThing has no `message`"])
        self.assertEqual(wrong("valid only if it is used", "right if it is used"), ["UnusedThing: `A thing is right if it is used (5.8)` is not of the form `.. is valid only if ..`"])
        self.assertEqual(wrong("if it is used (5.8)", "if it is used"), ["UnusedThing: `A thing is valid only if it is used` ends in no section"])
        self.assertEqual(wrong("stage    documents\n  lasts", "stage    somewhere\n  lasts"), ["UnusedThing: `somewhere` is no stage"])
        self.assertEqual(wrong("stage    documents\n  lasts", "lasts"), ["UnusedThing has to have a `stage` or `never`"])
        self.assertEqual(wrong("thing: `{name}`", "thing: `{nam}`"), ["UnusedThing: `nam` is no field"])
        self.assertEqual(wrong("thing: `{name}`", "thing: `{location}`"), ["UnusedThing: the texts of DiagnosticData have no template with such gaps"])
        self.assertEqual(wrong("name: Name", "name: Name -- that"), ["UnusedThing: the comment of `name` is written nowhere, since the data are in no box"])
        self.assertEqual(wrong("lasts    no", "lasts    yes"), ["UnusedThing: `lasts` has to begin with `no: `"])

    def test_lines_of_no_form_end_the_program(self):
        for line in ("  told     x", "   stage    documents", "two words"):
            with self.assertRaises(SystemExit):
                data(BOOK + line + "\n")
        with self.assertRaises(SystemExit):
            data(BOOK.replace("name: Name", "name: Nam"))


class Places(unittest.TestCase):
    LINES = [
        "/// Says.", "#[derive(A)]", "pub enum Says {", "    One,", "}", "", "fn says() {", "    match it {", "        1 => 2,", "    }", "}", "",
        "abbrev pub says : A", "says One = 1", "says Two = 2", "", "fn is_so() {", "    matches!(", "        it,", "        One", "    )", "}",
    ]

    def found(self, find):
        place = find(self.LINES)
        return place and self.LINES[slice(*place)]

    def test_parts_are_found(self):
        self.assertEqual(self.found(rulebook.inside("pub enum Says {")), ["    One,"])
        self.assertEqual(self.found(rulebook.inside("fn says(", "match it {")), ["        1 => 2,"])
        self.assertEqual(self.found(rulebook.below("abbrev pub says ")), ["says One = 1", "says Two = 2"])
        self.assertEqual(self.found(rulebook.item("pub enum Says {")), self.LINES[:5])
        self.assertEqual(self.found(rulebook.line("abbrev pub says ")), ["abbrev pub says : A"])
        self.assertEqual(self.found(rulebook.matched("fn is_so(")), ["        One"])

    def test_parts_that_are_not_there(self):
        for find in (rulebook.inside("pub enum Told {"), rulebook.inside("fn says(", "match you {"), rulebook.below("abbrev told "),
                     rulebook.item("struct Says"), rulebook.line("says Three"), rulebook.matched("fn says(")):
            self.assertIsNone(self.found(find))


class Writing(unittest.TestCase):
    """What is written is in the layout of `rt fmt`."""

    def test_variants(self):
        self.assertEqual(variants.variant_lines(data()), [
            "    // ---- documents", "    /// A thing is not used.", "    UnusedThing {", "        name: Name,", "        location: Option<SourceSpan>,", "    },",
            "    /// A thing is silly.", "    SillyThing,"])

    def test_a_constructor_and_its_view(self):
        self.assertEqual(variants.constructor_lines(data(), "Diagnostic P E")[-2:],
                         ["  UnusedThing : (name : List ℕ) (location : P) → Diagnostic P E", "  SillyThing : Diagnostic P E"])
        self.assertEqual(variants.equations("told", data(), "breach.", lambda entry: "1"), ["told (breach.UnusedThing name location) = 1", "told breach.SillyThing = 1"])

    def test_a_short_match_is_on_one_line(self):
        self.assertEqual(variants.arm([["A::B"], ["A::C"]], [["Ok(1)"]], 8), ["        A::B | A::C => Ok(1),"])

    def test_a_long_match_is_broken(self):
        long = [[f"Enumeration::VariantNumber{number}"] for number in ("One", "Two", "Three")]
        self.assertEqual(variants.arm(long, [["Ok(1)"]], 8), [
            "        Enumeration::VariantNumberOne", "        | Enumeration::VariantNumberTwo", "        | Enumeration::VariantNumberThree => Ok(1),"])
        body = "x" * 70
        self.assertEqual(variants.arm([["Enumeration::VariantNumberOne"]], [[body]], 8), ["        Enumeration::VariantNumberOne =>", f"            {body},"])

    def test_a_call_whose_line_is_full_has_its_items_below(self):
        self.assertEqual(variants.fitting(variants.calls("make", ["one", "two"], "?;"), 18), ["make(one, two)?;"])
        self.assertEqual(variants.fitting(variants.calls("make", ["one", "two"], "?;"), 12), ["make(", "    one, two,", ")?;"])
        self.assertEqual(variants.fitting(variants.calls("make", ["one", "the_second_one"], "?;"), 12), ["make(", "    one,", "    the_second_one,", ")?;"])

    def test_which_faults_last(self):
        self.assertEqual(variants.matches_lines("Data", data()), ["        Data::UnusedThing { .. }", "            | Data::SillyThing"])
        self.assertEqual(variants.lasts_lines("lasts", data()[:1], "false"), ["  lasts (UnusedThing name location) = false", "  lasts _ = true"])

    def test_a_text_is_quoted(self):
        self.assertEqual(variants.quoted('a "b" \\ c'), '"a \\"b\\" \\\\ c"')


if __name__ == "__main__":
    unittest.main()
