#!/usr/bin/env python3
"""How work grows with texts that are made to be slow: growth.py [--quick | --program FILE [--report FILE]] [--constructs] [--table] [WORD..]

Each family of growth_texts.py is measured: the instructions that the program takes for texts of n/2, n and 2 n bytes, and the most
memory that it holds for one of the full size, which is 20 KB of document and schema each, 200 KB of a schema, or 100 KB of aliases. A line
tells these, by what factor the instructions grow from n to 2 n, and the exponent of that growth. What all texts of a family take alike
is no growth: the factor is that of what n adds to n/2, and 2 n to n. With --table it is a line of a table. With words only
families are measured whose names have one of them. With --constructs texts are measured that repeat one construct each, and
compared with nothing.

The program is the proved one of `graphql_checked_program`; with --quick one that scripts/quick_build.py builds without proofs, which
`./graphql-checked` keeps too; with --program any file. Families of `graphql-report`, also those of its warnings, are measured on that
program, built as the other is, or on the file of --report.

Instructions are counted by `perf stat` where the machine counts them, else by valgrind's callgrind; the first line says by which.
Memory needs `time` as GNU has it. Each run has limits: one that passes 10 processor seconds or 1 GB is cut off, and a line tells
that it takes more. n is so small that the counted runs end.

Each family has a bound for the factor, and all have one for the memory (WANTED_MEGABYTES). KNOWN has the families that do not keep
theirs, with what is true today. The status is 1 where one is worse than is wanted or known, and also where one is better than KNOWN
says, so that KNOWN stays true; where a text is not answered as it should be; and where nothing was measured."""

import argparse
import math
import os
import signal
import subprocess
import sys
import tempfile
from typing import Dict, NamedTuple, Optional

import counting
import growth_texts
from sources import TOP

# The limits of a run at the full size, and of one that is counted.
FULL = counting.Limits(seconds=10, megabytes=1024)
COUNTED = counting.Limits(seconds=120, megabytes=2800)

# What is wanted: the MB at the full size. By what factor instructions may grow is in each family.
WANTED_MEGABYTES = 64

# By how much a figure may differ from KNOWN: programs with and without proofs differ by less.
LEEWAY = 0.08


class Known(NamedTuple):
    """What is true today of a family that does not keep its bounds: by what factor its instructions grow, the MB that it holds, and
    which limit cuts it off at the full size, `seconds` or `memory`; none where that bound is kept."""

    factor: Optional[float] = None
    megabytes: Optional[int] = None
    cut: Optional[str] = None


# The families that are known to be worse than wanted.
KNOWN: Dict[str, Known] = {}


class Measured(NamedTuple):
    """What was measured of a family: the bytes of both texts at n/2, n, 2 n and the full size, the instructions at the first three,
    and how the run of the full size ended."""

    sizes: list
    counts: list
    full: counting.Run

    def factor(self):
        """By what factor the instructions grow from n to 2 n, apart from those that all three texts take."""
        half, small, twice = self.counts
        return (twice - small) / (small - half)


class Measuring:
    """The programs, and the folder of the texts."""

    def __init__(self, programs, folder):
        self.programs, self.folder = programs, folder
        self.counter = counting.Counter(folder)

    def write(self, texts):
        """Writes a schema and a document, and gives the bytes of both."""
        for name, text in zip(("schema", "document"), texts):
            with open(os.path.join(self.folder, name), "w", encoding="utf-8") as file:
                file.write(text)
        return sum(len(text.encode()) for text in texts)

    def words(self, name):
        """How a program is called on these."""
        words = {"check": ["document", "schema"], "report": ["--schema", "schema", "document"], "warn": ["--warn", "--schema", "schema", "document"]}
        return [self.programs[name], *words[name]]

    def counted(self, name):
        """The instructions that it takes for these, and how it ended."""
        ended, count = self.counter.count(self.words(name), self.folder, limits=COUNTED, stdout=subprocess.DEVNULL)
        if count is None and not ended.cut:
            sys.exit(f"growth.py: nothing was counted: {ended.stderr[-300:]}")
        return ended, count

    def measured(self, family):
        """What is measured of a family, and what went wrong."""
        name, wrong, sizes, counts = family.program, [], [], []
        for size in (family.small // 2, family.small, 2 * family.small):
            sizes.append(self.write(family.make(size)))
            ended, count = self.counted(name)
            if count is None:
                return None, [f"cut off by {ended.cut} where its instructions are counted, at {size:,} bytes: take a smaller n"]
            wrong += unwanted_answer(family, ended)
            counts.append(count)
        if not counts[0] < counts[1] < counts[2]:
            return None, [f"does not grow, so nothing was measured: {counts}"]
        sizes.append(self.write(family.make(family.full)))
        full = counting.run(self.words(name), self.folder, limits=FULL, stdout=subprocess.DEVNULL)
        if not full.cut:
            wrong += unwanted_answer(family, full)
        return Measured(sizes, counts, full), wrong


def unwanted_answer(family, ended):
    """That a text is not answered as its family says."""
    if family.bound and ended.status != int(family.told):
        told = " ".join(line for line in ended.stderr.split("\n") if not line.startswith("=="))
        yield f"ended with status {ended.status}{told and ': ' + told[:200]}"


def compared(what, figure, wanted, known):
    """What is wrong with a figure, which is to be at most what is wanted, or nearly what is known."""
    if known is None:
        if figure > wanted:
            yield f"{what} {figure:.2f}, more than {wanted}"
    elif figure > known * (1 + LEEWAY):
        yield f"{what} {figure:.2f}, worse than {known}, which is known"
    elif figure <= wanted or figure < known * (1 - LEEWAY):
        yield f"{what} {figure:.2f}, better than {known}: change what KNOWN says"


def wrong_with(family, measured):
    """What is wrong with what was measured."""
    known, full = KNOWN.get(family.name, Known()), measured.full
    yield from compared("grows by a factor of", measured.factor(), family.bound, known.factor)
    if full.cut:
        if full.cut != known.cut:
            yield f"cut off by {full.cut} at {family.full:,} bytes"
    elif not known.cut:
        yield from compared("MB held:", full.kilobytes / 1024, WANTED_MEGABYTES, known.megabytes)
    # One that is known to be cut off may just end on a faster machine.
    elif full.seconds < FULL.seconds / 4:
        yield f"ends at {family.full:,} bytes after {full.seconds:.1f} seconds: change what KNOWN says"


def shown(family, measured, as_table):
    """The line of what was measured."""
    _, small, twice, size = measured.sizes
    factor, full = measured.factor(), measured.full
    more = "more than " if full.cut else ""
    seconds = f"{more if full.cut == 'seconds' else ''}{full.seconds:.1f}"
    megabytes = f"{more if full.cut else ''}{full.kilobytes / 1024:,.0f}"
    exponent = math.log2(factor)
    counts = [f"{count / 1e6:,.0f}" for count in measured.counts[1:]]
    if as_table:
        return f"| {family.name}: {family.sentence} | {twice:,} | {counts[1]} | {factor:.2f} | {exponent:.1f} | {size:,} | {megabytes} | {seconds} |"
    known = " known" if family.name in KNOWN else ""
    return f"{family.name:24} {small:8,} {twice:8,} bytes {counts[0]:>7} {counts[1]:>7} M, {factor:5.2f}, n^{exponent:.1f} {size:8,} bytes {megabytes} MB {seconds} s{known}"


def quick(crate):
    """The program of a crate, built without proofs, which is built first where it is not there."""
    folder = os.environ.get("GRAPHQL_CHECKED_BUILT") or os.path.join(TOP, ".built")
    script = [sys.executable, os.path.join(TOP, "scripts", "quick_build.py")]
    checksum = subprocess.run([*script, "checksum"], capture_output=True, text=True, check=True).stdout.strip()
    file = os.path.join(folder, f"{crate}-{checksum}")
    if not os.path.exists(file):
        subprocess.run([*script, "program", crate, file], check=True)
    return file


def programs(options):
    """The programs to measure, by what families call them."""
    crates = {"check": "graphql_checked_program", "report": "graphql_report_program", "warn": "graphql_report_program"}
    if options.quick:
        return {name: quick(crate) for name, crate in crates.items()}
    if options.program:
        given = {"check": options.program, "report": options.report, "warn": options.report}
        return {name: os.path.abspath(file) for name, file in given.items() if file}
    return {name: os.path.join(TOP, "crates", crate, "out", crate) for name, crate in crates.items()}


def chosen(options, found):
    """The families that are asked for, those whose program is there; it says which are left out."""
    families = [growth_texts.construct(*it) for it in growth_texts.CONSTRUCTS] if options.constructs else growth_texts.FAMILIES
    wanted = [it for it in families if not options.words or any(word in it.name for word in options.words)]
    left_out = [it.name for it in wanted if it.program not in found]
    if left_out:
        print(f"not measured, without --report: {', '.join(left_out)}")
    return [it for it in wanted if it.program in found]


def main():
    """Measures each family and prints a line of it, then what is wrong."""
    parser = argparse.ArgumentParser(description=__doc__.split(":")[0])
    parser.add_argument("--quick", action="store_true", help="the program without proofs")
    parser.add_argument("--program", metavar="FILE", help="this program as graphql-checked")
    parser.add_argument("--report", metavar="FILE", help="this program as graphql-report")
    parser.add_argument("--constructs", action="store_true", help="measure texts of one construct each, and compare nothing")
    parser.add_argument("--table", action="store_true", help="print lines of a table")
    parser.add_argument("words", nargs="*", metavar="WORD", help="families whose names have it")
    options = parser.parse_args()
    # So that what it has started is ended with it.
    signal.signal(signal.SIGTERM, lambda number, _: sys.exit(128 + number))
    found = programs(options)
    missing = [file for file in found.values() if not os.access(file, os.X_OK)]
    if missing:
        sys.exit(f"growth.py: there is no program {', '.join(missing)}: --quick builds one")
    wrong, count = [f"KNOWN has {name}, which is no family" for name in sorted(set(KNOWN) - {it.name for it in growth_texts.FAMILIES})], 0
    with tempfile.TemporaryDirectory() as folder:
        measuring = Measuring(found, folder)
        print(f"instructions by {measuring.counter.name}, of {found['check']}", flush=True)
        for family in chosen(options, found):
            measured, mistakes = measuring.measured(family)
            if measured:
                count += 1
                mistakes += wrong_with(family, measured) if family.bound else []
                print(shown(family, measured, options.table), flush=True)
            wrong += [f"{family.name}: {mistake}" for mistake in mistakes]
    if not count:
        wrong.append("nothing was measured")
    print("".join(f"{line}\n" for line in wrong), end="")
    print(f"growth: {count} families, {len(wrong)} wrong")
    return 1 if wrong else 0


if __name__ == "__main__":
    sys.exit(main())
