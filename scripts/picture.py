#!/usr/bin/env python3
"""The road from bytes to verdict, as docs/road.svg: scripts/picture.py [--write] [--check]

Each arrow is a public function with a clause whose words have a relation: what is proved of that step. The crate is looked up in
the sources, and must be in crates.txt; that of a road's last step must depend on those of all steps before it.

The picture is drawn here and not by graphviz, whose versions draw one graph differently: so a check could not compare it.

--write writes the picture. --check prints a line for each clause or relation that is not there, each crate that the last step does
not depend on, and one where docs/road.svg is not what this makes; its status is then 1.
"""
import html
import os
import sys

import sources

PICTURE = "docs/road.svg"

# The boxes: what is there, and where its upper left corner is.
WIDE, HIGH, PITCH = 132, 44, 292
COLUMN = [10 + PITCH * n for n in range(5)]
BOXES = {
    "schemas": ("schema texts", COLUMN[0], 80),
    "trees": ("trees", COLUMN[1], 80),
    "schema": ("schema", COLUMN[2], 80),
    "valid schema": ("valid schema", COLUMN[3], 80),
    "document": ("document text", COLUMN[0], 220),
    "tree": ("tree", COLUMN[1], 220),
    "typed": ("typed document", COLUMN[2], 220),
    "valid document": ("valid document", COLUMN[3], 220),
    "verdict": ("verdict", COLUMN[4], 150),
    "book": ("IsYes, the book", COLUMN[4], 20),
    "written": ("canonical texts", COLUMN[4], 290),
}


class Step:
    """An arrow: from which box to which, the function, the clause with its relation, and that of what is told otherwise."""

    def __init__(self, start, end, function, clause, relation, otherwise=None):
        self.start, self.end, self.function = start, end, function
        self.clauses = [(clause, relation)] + ([otherwise] if otherwise else [])


ROADS = [
    [
        Step("schemas", "trees", "parse_document", "found", "ReadsWithin", ("fault", "IsDue")),
        Step("trees", "schema", "build", "schema", "folded", ("faults", "FailsIn")),
        Step("schema", "valid schema", "validate_schema", "silent", "SchemaRules", ("told", "SchemaTold")),
        Step("valid schema", "verdict", "check_texts", "verdict", "IsVerdict", ("complete", "IsCertain")),
    ],
    [
        Step("document", "tree", "parse_document", "found", "ReadsWithin", ("fault", "IsDue")),
        Step("tree", "typed", "build", "document", "built_document", ("faults", "AreTypingFaults")),
        Step("typed", "valid document", "validate_executable_document", "silent", "SilenceMeansValid", ("told", "TypedDocumentTold")),
        Step("valid document", "verdict", "check_texts", "verdict", "IsVerdict", ("complete", "IsCertain")),
    ],
]
BOOK = Step("verdict", "book", "accepted_by_the_book", "texts", "AcceptedByTheBook")
WRITTEN = Step("verdict", "written", "written", "", "layout_text")
BACK = Step("written", "document", "what_is_written_is_checked_alike", "pair", "PairAgain")


def public_functions():
    """The public functions of the crates, by name: each crate with its clauses."""
    found = {}
    for crate in sources.crates():
        for path in sources.paths(f"crates/{crate}/src/*.rt"):
            for function in sources.functions(sources.read(path)):
                if function.is_public:
                    found.setdefault(function.name, []).append((crate, [(label, words) for _, label, words, _ in function.clauses]))
    return found


def crate_of(step, functions):
    """The crate of a step, or nothing where no public function has these clauses."""
    for crate, clauses in functions.get(step.function, []):
        if all(any(label == clause and relation in words.replace("(", " ").split() for label, words in clauses) for clause, relation in step.clauses):
            return crate
    return None


def below(crate, known, found=None):
    """The crates that a crate depends on, itself among them."""
    found = set() if found is None else found
    if crate in known and crate not in found:
        found.add(crate)
        for lower in known[crate]:
            below(lower, known, found)
    return found


def text(x, y, words, kind):
    """A line of text around a point."""
    return f'<text x="{x}" y="{y}" class="{kind}">{html.escape(words)}</text>'


def labels(step, crate, x, y):
    """The words at an arrow: the relation and the function above it, clause and crate below, and what is told otherwise."""
    clause, relation = step.clauses[0]
    lines = [text(x, y - 22, relation, "relation"), text(x, y - 9, step.function, "small"), text(x, y + 17, f"{clause}, in {crate}", "small")]
    lines += [text(x, y + 31, f"{second} ({name})", "other") for name, second in step.clauses[1:]]
    return lines


def arrow(points):
    """A line with a head at its end."""
    return '<path d="M ' + " L ".join(f"{x} {y}" for x, y in points) + '" class="arrow"/>'


def drawn(crates):
    """The picture, with the crate of each step."""
    shapes = []
    for road in ROADS:
        for step in road:
            _, x, y = BOXES[step.start]
            _, to, other = BOXES[step.end]
            start, end = (x + WIDE, y + HIGH // 2), (to, other + HIGH // 2)
            middle = (start[0] + 150, start[1])
            shapes.append(arrow([start, end]) if start[1] == end[1] else arrow([start, middle, (middle[0], end[1]), end]))
            if start[1] == end[1]:
                shapes += labels(step, crates[step], (start[0] + end[0]) // 2, start[1])
            elif start[1] < end[1]:
                shapes += labels(step, crates[step], start[0] + 74, start[1])
    _, x, y = BOXES["verdict"]
    middle = x + WIDE // 2
    shapes += ['<path d="M {0} {1} L {0} {2}" class="both"/>'.format(middle, y, BOXES["book"][2] + HIGH)]
    shapes += [text(middle + 8, 98, BOOK.clauses[0][1], "relation left"), text(middle + 8, 112, crates[BOOK], "small left")]
    shapes += [arrow([(middle, y + HIGH), (middle, BOXES["written"][2])])]
    shapes += [text(middle + 8, 238, WRITTEN.clauses[0][1], "relation left"), text(middle + 8, 252, f"{WRITTEN.function}, {crates[WRITTEN]}", "small left")]
    _, left, document = BOXES["document"]
    floor = BOXES["written"][2] + HIGH // 2
    shapes += [arrow([(x, floor), (left + WIDE // 2, floor), (left + WIDE // 2, document + HIGH)])]
    centre = (x + left + WIDE) // 2
    shapes += [text(centre, floor - 9, BACK.clauses[0][1] + ": accepted again, equal, and written with the same bytes", "relation")]
    shapes += [text(centre, floor + 17, f"{BACK.function}: {BACK.clauses[0][0]}, {crates[BACK]}", "small")]
    for words, x, y in BOXES.values():
        shapes += [f'<rect x="{x}" y="{y}" width="{WIDE}" height="{HIGH}" rx="6" class="box"/>', text(x + WIDE // 2, y + 27, words, "name")]
    return HEAD + "\n".join(shapes) + "\n</svg>\n"


HEAD = f"""<svg xmlns="http://www.w3.org/2000/svg" viewBox="0 0 {COLUMN[4] + WIDE + 90} 350" role="img" aria-label="The road from bytes to verdict, with the relation that is proved on each arrow">
<!-- scripts/picture.py makes this from crates.txt and the clauses -->
<defs><marker id="head" viewBox="0 0 8 8" refX="8" refY="4" markerWidth="8" markerHeight="8" orient="auto-start-reverse"><path d="M 0 0 L 8 4 L 0 8 z" fill="#555"/></marker></defs>
<style>
.box {{ fill: #eef3fb; stroke: #4a6fa5; }}
.arrow {{ fill: none; stroke: #555; marker-end: url(#head); }}
.both {{ fill: none; stroke: #555; marker-end: url(#head); marker-start: url(#head); }}
text {{ font-family: sans-serif; text-anchor: middle; fill: #222; }}
.name {{ font-size: 14px; font-weight: bold; }}
.relation {{ font-family: monospace; font-size: 12px; font-weight: bold; fill: #14532d; }}
.small {{ font-family: monospace; font-size: 9px; fill: #333; }}
.other {{ font-family: monospace; font-size: 9px; fill: #9b2c2c; }}
.left {{ text-anchor: start; }}
</style>
<rect width="100%" height="100%" fill="white"/>
"""


def main(words):
    functions, known = public_functions(), sources.crates()
    steps = [step for road in ROADS for step in road] + [BOOK, WRITTEN, BACK]
    crates = {step: crate_of(step, functions) for step in steps}
    wrong = [f"scripts/picture.py: no public function `{step.function}` has {step.clauses}" for step in steps if crates[step] is None]
    for road in [] if wrong else ROADS:
        last = crates[road[-1]]
        wrong += [f"scripts/picture.py: {last} does not depend on {crates[step]}" for step in road if crates[step] not in below(last, known)]
    if wrong:
        print("\n".join(wrong + [f"picture: {len(wrong)} wrong"]))
        return 1
    picture = drawn(crates)
    path = os.path.join(sources.TOP, PICTURE)
    if "--write" in words:
        with open(path, "w", encoding="utf-8") as file:
            file.write(picture)
        return 0
    if not os.path.exists(path) or sources.read(PICTURE) != picture:
        wrong.append(f"{PICTURE}: is not what the sources make; scripts/picture.py --write makes it")
    print("\n".join(wrong + [f"picture: {len(steps)} steps, {len(wrong)} wrong"]))
    return 1 if wrong and "--check" in words else 0


if __name__ == "__main__":
    sys.exit(main(sys.argv[1:]))
