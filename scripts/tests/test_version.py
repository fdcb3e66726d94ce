"""Tests of scripts/version.py: what it writes, and what it refuses."""
import unittest

import version


def texts(full, short, number):
    """The files with a version, as they may be."""
    return {
        "include/graphql_checked.h": f'libgraphql_checked.so.{short}\n#define GRAPHQL_CHECKED_VERSION "{full}"\n#define GRAPHQL_CHECKED_VERSION_NUMBER {number} /* */\n',
        "python/graphql_checked/_version.py": f'__version__ = "{full}"\n',
        "node/package.json": f'{{"version": "{full}"}}\n',
        "crates/report_cli/src/command.rt": f'.version("{full}")\n',
        "crates/report_cli/src/sarif.rt": f'graphql-report\\",\\"version\\":\\"{full}\\"\n',
        "docs/REPOSITORY.md": f"rev: v{full}\ngraphql-checked@v{full}\ngraphql_checked-{full}-py3\n",
    }


class Version(unittest.TestCase):
    def test_forms(self):
        self.assertEqual(version.forms("1.23.4"), {"full": "1.23.4", "short": "1.23", "number": "12304"})
        for word in ("1.2", "1.2.3.4", "v1.2.3", ""):
            with self.assertRaises(SystemExit):
                version.forms(word)

    def test_places_of_another_version_are_wrong(self):
        self.assertEqual(list(version.wrong_places(texts("1.2.3", "1.2", 10203), "1.2.3")), [])
        self.assertEqual(len(list(version.wrong_places(texts("1.2.3", "1.2", 10203), "1.3.0"))), len(version.PLACES))
        self.assertEqual(list(version.wrong_places(texts("1.2.3", "1.2", 10200), "1.2.3")),
                         ["include/graphql_checked.h: has the version 10200, not 10203; scripts/version.py --write writes it"])

    def test_a_place_that_is_gone_is_wrong(self):
        there = {**texts("1.2.3", "1.2", 10203), "node/package.json": "{}"}
        self.assertEqual([line.split(":")[0] for line in version.wrong_places(there, "1.2.3")], ["node/package.json"])

    def test_what_is_written_is_right(self):
        there, wanted = texts("1.2.3", "1.2", 10203), texts("2.0.1", "2.0", 20001)
        for path, pattern, form in version.PLACES:
            there[path] = version.written(there[path], pattern, version.forms("2.0.1")[form])
        self.assertEqual(there, wanted)

    def test_the_changelog_begins_with_the_version_and_a_day(self):
        wrong = lambda head: list(version.wrong_changelog(f"# Changelog\n\n{head}\n\n## 0.0.9, 2026-01-01\n", "1.2.3"))
        self.assertEqual(wrong("## 1.2.3, 2026-12-01"), [])
        for head in ("## Unreleased", "## 1.2.3", "## 1.2.4, 2026-12-01", "## 1.2.3, soon"):
            self.assertEqual(len(wrong(head)), 1, head)


if __name__ == "__main__":
    unittest.main()
