#!/usr/bin/env python3
"""The version, which VERSION has, wherever else it is: scripts/version.py [--write] [--check]

Header, packages and a program must have the version in their own text, and pages tell it. --write puts that of VERSION there: to
make a release, change VERSION, run this, and begin a section of CHANGELOG.md with the version and the day. --check prints a line
for each place that has another version or none, and one where the first section of CHANGELOG.md is of another; its status is
then 1.
"""
import os
import re
import sys

import sources

# Where the version is: a file, what is around it there, and its form. `short` is what programs load the library by.
PLACES = [
    ("include/graphql_checked.h", r'(define GRAPHQL_CHECKED_VERSION ")([^"]*)(")', "full"),
    ("include/graphql_checked.h", r"(define GRAPHQL_CHECKED_VERSION_NUMBER )(\d+)( )", "number"),
    ("include/graphql_checked.h", r"(libgraphql_checked\.so\.)([\d.]*\d)()", "short"),
    ("python/graphql_checked/_version.py", r'(__version__ = ")([^"]*)(")', "full"),
    ("node/package.json", r'("version": ")([^"]*)(")', "full"),
    ("crates/report_cli/src/command.rt", r'(\.version\(")([^"]*)("\))', "full"),
    ("crates/report_cli/src/sarif.rt", r'(graphql-report\\",\\"version\\":\\")([^"\\]*)(\\")', "full"),
    ("docs/REPOSITORY.md", r"(rev: v)([\d.]*\d)()", "full"),
    ("docs/REPOSITORY.md", r"(graphql-checked@v)([\d.]*\d)()", "full"),
    ("docs/REPOSITORY.md", r"(graphql_checked-)([\d.]*\d)(-)", "full"),
]


def forms(version):
    """A version in each form. It ends the program where it is no version."""
    found = re.fullmatch(r"(\d+)\.(\d+)\.(\d+)", version)
    if not found:
        raise SystemExit(f"VERSION: `{version}` is not three numbers with dots between")
    major, minor, patch = map(int, found.groups())
    return {"full": version, "short": f"{major}.{minor}", "number": str(10000 * major + 100 * minor + patch)}


def written(text, pattern, wanted):
    """The text with this version in each place that fits."""
    return re.sub(pattern, lambda found: found.group(1) + wanted + found.group(3), text)


def wrong_places(texts, version):
    """A line for each place that has another version, or none."""
    for path, pattern, form in PLACES:
        wanted = forms(version)[form]
        found = [match.group(2) for match in re.finditer(pattern, texts[path])]
        if not found:
            yield f"{path}: has no version where `{pattern}` is"
        yield from (f"{path}: has the version {it}, not {wanted}; scripts/version.py --write writes it" for it in found if it != wanted)


def wrong_changelog(text, version):
    """A line where the first section of the changelog is not of the version, with a day."""
    head = next((line for line in text.split("\n") if line.startswith("## ")), "## nothing")
    if not re.fullmatch(rf"## {re.escape(version)}, \d{{4}}-\d\d-\d\d", head):
        yield f"CHANGELOG.md: its first section is `{head[3:]}`, not `{version}, YEAR-MONTH-DAY`"


def main(words):
    version = sources.read("VERSION").strip()
    paths = list(dict.fromkeys(path for path, _, _ in PLACES))
    texts = {path: sources.read(path) for path in paths}
    if "--write" in words:
        for path, pattern, form in PLACES:
            texts[path] = written(texts[path], pattern, forms(version)[form])
        for path in paths:
            if texts[path] != sources.read(path):
                with open(os.path.join(sources.TOP, path), "w", encoding="utf-8") as file:
                    file.write(texts[path])
    wrong = [*wrong_places(texts, version), *wrong_changelog(sources.read("CHANGELOG.md"), version)]
    print("\n".join([*wrong, f"version: {version}, in {len(PLACES)} places of {len(paths)} files, {len(wrong)} wrong"]))
    return 1 if wrong and "--check" in words else 0


if __name__ == "__main__":
    sys.exit(main(sys.argv[1:]))
