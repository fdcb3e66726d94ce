#!/usr/bin/env python3
"""Whether `out of memory` is told at each allocation: refused.py [--sample N] [--jobs N] [--states] [PROGRAM [WORD]]

PROGRAM is the built program of `graphql_checked_program`; without it the proved one that `rt ci` or `rt run` leaves in its `out/`. It is
run on rows of the whole checker (CALLS), each time with one request for memory refused, and with all from one on, by a few lines of C
that are built by `cc` into a folder that is removed again and stand before the C library (LD_PRELOAD). Of the rows of WHOLE every
request is refused in turn, both ways; of each other row N of them (12), spread evenly, the one way and the other in turn; of a
row with several documents or limits the first that the program's words can name. With WORD only rows whose names have it are tried.

Each run is to end with status 4, `out of memory` and nothing out. A run may still give the whole right answer, where what was
refused was a hint alone, such as a number of places asked for beforehand: a line tells which request that was and of how many bytes.
Every other run is printed. The last line has the counts, and the status is 1 where a run was otherwise, where a row of WHOLE is not
there or is not answered as it wants, and where no request is seen: an unproved build (`rt try`) brings an allocator of its own.

With --states PROGRAM is that of `row_checker`, and its rows of the call `series` are run: one schema answers several documents, and
the first of them twice. Each request, or 50 times N of them, is refused alone, so that memory is there again after it. Either the row
is not judged, or one answer is `out of memory` and each other one is right, those of the same schema after it among them.

With --library PROGRAM is that of `examples/c/abuse.c`, which compares the answers of the library for C by itself, and takes
`out of memory` for right where some is refused: alone, it asks again and wants the right answer. Each request, or 50 times N of them, is
refused, alone and with all from it on."""

import argparse
import concurrent.futures
import glob
import mmap
import os
import re
import struct
import subprocess
import sys
import tempfile

TOP = os.path.dirname(os.path.dirname(os.path.abspath(__file__)))
DATA = os.path.join(TOP, "crates/row_checker/data")
PROGRAM = os.path.join(TOP, "crates/graphql_checked_program/out/graphql_checked_program")
ROW_PROGRAM = os.path.join(TOP, "crates/row_checker/out/row_checker")

# The calls of the whole checker.
CALLS = {"check_texts", "calls", "lent", "run", "all", "back", "series"}

# The worked rows of which every request is refused: a field, extensions, merging, a block string, a fault.
WHOLE = [
    "a query of one field",
    "extensions stand in the order of what they give: directives, interfaces, fields",
    "fields of one key on two object types",
    "a description of two lines is a block",
    "two equal keys of an object for a custom scalar",
]

# What stands before the C library. Counts are kept in a file that is mapped, so that they are there however the program ends:
# how many requests there were, how many of them were refused, and of how many bytes the first of these was. With REFUSED_LIST, a file
# of the numbers of requests in order, one run goes through, and at each of these is forked: there it is refused. REFUSED_TOLD gets, for
# each, the number, the status, the counts and what was written.
SHIM = r"""
#define _GNU_SOURCE
#include <errno.h>
#include <fcntl.h>
#include <stdlib.h>
#include <sys/mman.h>
#include <sys/stat.h>
#include <sys/wait.h>
#include <unistd.h>

void *__libc_malloc(size_t), *__libc_calloc(size_t, size_t), *__libc_realloc(void *, size_t), *__libc_memalign(size_t, size_t);

static unsigned long own[3], *counts = own, first, is_each;

static void write_all(int file, const void *from, size_t size) {
    if (write(file, from, size) != (ssize_t)size) _exit(98);
}

static void copy_all(int from, int to) {
    static char room[1 << 16];
    lseek(from, 0, SEEK_SET);
    for (ssize_t size; (size = read(from, room, sizeof room)) > 0;) write_all(to, room, size);
}

static int list = -1, told = -1;
static unsigned long next, *of_run;

/* Forks the run in which this request is refused: 1 in that run. Here it waits for it, and tells how it ended. */
static int is_run(unsigned long number) {
    int out = memfd_create("out", 0), err = memfd_create("err", 0), status;
    struct stat outs, errs;
    of_run[0] = number, of_run[1] = of_run[2] = 0;
    pid_t run = fork();
    if (out < 0 || err < 0 || run < 0) _exit(97);
    if (!run) {
        dup2(out, 1), dup2(err, 2), close(out), close(err), close(list), close(told);
        alarm(60);
        counts = of_run, first = number, list = -1;
        return 1;
    }
    waitpid(run, &status, 0);
    fstat(out, &outs), fstat(err, &errs);
    unsigned long how[6] = {number, WIFEXITED(status) ? WEXITSTATUS(status) : 256, of_run[1], of_run[2], outs.st_size, errs.st_size};
    write_all(told, how, sizeof how), copy_all(out, told), copy_all(err, told), close(out), close(err);
    if (read(list, &next, sizeof next) != sizeof next) _exit(0);
    return 0;
}

__attribute__((constructor)) static void begin(void) {
    const char *path = getenv("REFUSED_COUNTS"), *number = getenv("REFUSED_FIRST");
    int file = path ? open(path, O_RDWR) : -1;
    void *kept = file < 0 ? MAP_FAILED : mmap(0, sizeof own, PROT_READ | PROT_WRITE, MAP_SHARED, file, 0);
    if (kept == MAP_FAILED) _exit(99);
    const char *from = getenv("REFUSED_LIST"), *to = getenv("REFUSED_TOLD");
    if (from && to) {
        list = open(from, O_RDONLY), told = open(to, O_WRONLY);
        of_run = mmap(0, sizeof own, PROT_READ | PROT_WRITE, MAP_SHARED | MAP_ANONYMOUS, -1, 0);
        if (list < 0 || told < 0 || of_run == MAP_FAILED || read(list, &next, sizeof next) != sizeof next) _exit(96);
    }
    counts = kept;
    is_each = getenv("REFUSED_EACH") != 0;
    first = number ? strtoul(number, 0, 10) : 0;
}

static int is_refused(size_t bytes) {
    if (counts == own) return 0;
    unsigned long number = ++counts[0];
    if (list >= 0 && number == next && gettid() == getpid()) {
        int before = errno;
        if (!is_run(number)) return errno = before, 0;
    }
    if (!first || number < first || (number > first && !is_each)) return 0;
    if (!counts[1]++) counts[2] = bytes;
    errno = ENOMEM;
    return 1;
}

void *malloc(size_t bytes) { return is_refused(bytes) ? 0 : __libc_malloc(bytes); }
void *calloc(size_t count, size_t bytes) { return is_refused(count * bytes) ? 0 : __libc_calloc(count, bytes); }
void *realloc(void *old, size_t bytes) { return is_refused(bytes) ? 0 : __libc_realloc(old, bytes); }
void *memalign(size_t align, size_t bytes) { return is_refused(bytes) ? 0 : __libc_memalign(align, bytes); }
void *aligned_alloc(size_t align, size_t bytes) { return is_refused(bytes) ? 0 : __libc_memalign(align, bytes); }
int posix_memalign(void **made, size_t align, size_t bytes) {
    if (is_refused(bytes) || !(*made = __libc_memalign(align, bytes))) return ENOMEM;
    return 0;
}
"""

ESCAPES = {"n": b"\n", "r": b"\r", "t": b"\t", "\\": b"\\", "'": b"'", '"': b'"'}


def unescaped(value):
    """The bytes that a value of a row file stands for, or an answer that a program of rows tells."""
    found, at = b"", 0
    while at < len(value):
        if value[at] != "\\":
            found += value[at].encode()
            at += 1
        elif value[at + 1] == "x":
            found += bytes([int(value[at + 2 : at + 4], 16)])
            at += 4
        else:
            found += ESCAPES[value[at + 1]]
            at += 2
    return found


class Row:
    """A row: its name, and its fields with those in common of which it has none itself."""

    def __init__(self, name, common):
        self.name, self.common, self.own = name, common, []

    def values(self, name):
        """The values of the field, in order."""
        own = [value for field, value in self.own if field == name]
        return own or [value for field, value in self.common if field == name]

    def words(self):
        """The options of the program that the row asks for. None where it has no such limit."""
        limits = " ".join(self.values("nesting") or ["500"]).split()
        named = [limit for limit in limits if limit != "most" and 1 <= int(limit) <= 1000]
        if not named:
            return None
        indent = self.values("indent") or ["line"]
        return ["--indent", indent[0], "--nesting", named[0]]

    def wanted(self):
        """The status and the output that the row wants."""
        lines = b"".join(unescaped(line) + b"\n" for line in self.values("line"))
        return int(self.values("status")[0]), lines


def rows():
    """The rows of all row files."""
    found = []
    for path in sorted(glob.glob(os.path.join(DATA, "*.rows"))):
        common = fields = None
        with open(path, encoding="utf-8") as file:
            for line in file.read().split("\n"):
                if not line or line.startswith("#"):
                    continue
                name, _, value = line.partition(":")
                value = value[1:]
                if name == "common":
                    common = fields = []
                elif name == "row":
                    found.append(Row(value, common or []))
                    fields = found[-1].own
                else:
                    fields.append((name, value))
    return found


class Runs:
    """The runs of a program with these words in a folder of its own."""

    def __init__(self, program, shim, folder, row, words):
        self.program, self.shim, self.folder, self.words = program, shim, folder, words
        self.row, self.right, self.requests = row, None, 0
        os.mkdir(folder)

    def run(self, first=0, is_each=False):
        """A run: its answer, and how many requests it made, how many were refused, and the bytes of the first of these."""
        with tempfile.NamedTemporaryFile(dir=self.folder) as kept:
            kept.write(bytes(24))
            kept.flush()
            names = {"LD_PRELOAD": self.shim, "REFUSED_COUNTS": kept.name, "REFUSED_FIRST": str(first)}
            if is_each:
                names["REFUSED_EACH"] = "yes"
            done = subprocess.run(
                [self.program, *self.words], cwd=self.folder, env={**os.environ, **names}, timeout=60, capture_output=True, check=False
            )
            with mmap.mmap(kept.fileno(), 24, prot=mmap.PROT_READ) as counts:
                requests, refused, size = struct.unpack("QQQ", counts[:24])
        return (done.returncode, done.stdout, done.stderr), requests, refused, size

    def begin(self):
        """The right answer, and how many requests for memory it takes."""
        self.right, self.requests, _, _ = self.run()

    def refuse(self, number, is_each):
        """What is to be told of a run in which the request of this number is refused, alone or with all after it: a kind and a line."""
        answer, _, refused, size = self.run(number, is_each)
        return self.told(number, is_each, answer, refused, size)

    def told(self, number, is_each, answer, refused, size):
        """What is to be told of the answer of such a run."""
        way = "from there on" if is_each else "alone"
        said = f"{self.row.name}: request {number} of {self.requests}, {size} bytes, refused {way}"
        if refused == 0:
            return "other", f"{said}: was not made"
        if self.is_told(answer):
            return "told", ""
        if answer == self.right:
            return "hint", f"{said}: the whole answer all the same"
        return "other", f"{said}: status {answer[0]}, output {answer[1][-300:]!r}, errors {answer[2][:80]!r}"


class Pair(Runs):
    """A row as files, and the runs of the program on them."""

    def __init__(self, program, shim, folder, row, words):
        super().__init__(program, shim, folder, row, words)
        texts = [unescaped(text) for text in row.values("document")[:1] + row.values("schema")]
        self.words += [str(number) for number in range(len(texts))]
        for number, text in enumerate(texts):
            with open(os.path.join(folder, str(number)), "wb") as file:
                file.write(text)

    def is_told(self, answer):
        """Whether the answer is `out of memory`, and nothing is out."""
        return answer == (4, b"", b"out of memory\n")

    def is_right(self):
        """Whether the program answers as the row wants where memory is ample."""
        return self.right[:2] == self.row.wanted() and not self.right[2]


class Series(Runs):
    """A row of the call `series`, alone in a row file, and the runs of the program of rows on that."""

    def __init__(self, program, shim, folder, row):
        super().__init__(program, shim, folder, row, ["series.rows"])
        own = {name for name, _ in row.own}
        fields = [("row", row.name)] + [field for field in row.common if field[0] not in own] + row.own
        with open(os.path.join(folder, "series.rows"), "w", encoding="utf-8") as file:
            file.write("".join(f"{name}: {value}\n" if value else f"{name}:\n" for name, value in fields))
        lines = re.split(rb"(?m)^(?=accepted\n|refused\n)", b"".join(unescaped(line) + b"\n" for line in row.values("line")))
        self.statuses, self.parts = row.values("status")[0].split(", "), lines[1:]

    def is_right(self):
        """Whether the program tells of no difference where memory is ample."""
        return self.right[0] == 0

    def is_told(self, answer):
        """Whether the row is not judged, or `out of memory` is the answer to one document alone, and each other answer is right."""
        if answer[0] == 2:
            return True
        got = re.search(rb"(?m)^  got: (.*?) `(.*)`$", answer[1])
        if answer[0] != 1 or not got:
            return False
        statuses, out = got.group(1).decode().split(", "), unescaped(got.group(2).decode())
        if statuses == ["4 out of memory"]:
            return out == b""
        return len(statuses) == len(self.statuses) and self.follows(statuses, out, 0)

    def follows(self, statuses, out, index):
        """Whether the output goes on as these statuses say, from the answer of that index on."""
        if index == len(statuses):
            return out == b""
        part = self.parts[index]
        if statuses[index] == self.statuses[index]:
            return out.startswith(part) and self.follows(statuses, out[len(part) :], index + 1)
        first, *texts = part.splitlines(keepends=True)
        cuts = [b"", first, *(first + text for text in texts)]
        is_memory = statuses[index].endswith("4 out of memory")
        return is_memory and any(out.startswith(cut) and self.follows(statuses, out[len(cut) :], index + 1) for cut in cuts)


class Calls(Runs):
    """The runs of a program that compares the answers of the library by itself."""

    def __init__(self, program, shim, folder):
        super().__init__(program, shim, folder, Row(os.path.basename(program), []), [])

    def is_right(self):
        """Whether it tells of no difference where memory is ample."""
        return self.right == (0, b"as wanted\n", b"")

    def is_told(self, answer):
        """Whether `out of memory` was an answer, and it tells of no difference."""
        return answer == (0, b"as wanted, out of memory told\n", b"")

    def refuse_each(self, numbers, is_each):
        """What is to be told of the runs in which one of these requests is refused, each forked from one run where it is made."""
        names = {"LD_PRELOAD": self.shim, "REFUSED_FIRST": "0", **({"REFUSED_EACH": "yes"} if is_each else {})}
        for name, text in {"COUNTS": bytes(24), "LIST": b"".join(struct.pack("Q", one) for one in numbers), "TOLD": b""}.items():
            names[f"REFUSED_{name}"] = path = os.path.join(self.folder, name)
            with open(path, "wb") as file:
                file.write(text)
        subprocess.run([self.program], cwd=self.folder, env={**os.environ, **names}, timeout=600, capture_output=True, check=False)
        with open(names["REFUSED_TOLD"], "rb") as file:
            for number in numbers:
                told = struct.unpack("6Q", file.read(48) or bytes(48))
                if told[0] != number:
                    yield "other", f"{self.row.name}: request {number} of {self.requests} was not made"
                    return
                yield self.told(number, is_each, (told[1], file.read(told[4]), file.read(told[5])), told[2], told[3])


def tried_calls(program, shim, folder, sample):
    """What is to be told of the runs of such a program: a kind and a line each."""
    calls = Calls(program, shim, os.path.join(folder, "calls"))
    calls.begin()
    if not calls.is_right():
        return [("other", f"{calls.row.name}: the answer is {calls.right!r}")]
    chosen_ones = numbers(calls.requests, 50 * sample, 0)
    return [it for is_each in (False, True) for it in calls.refuse_each(chosen_ones, is_each)]


def numbers(requests, sample, offset):
    """So many numbers from 1 to that of the requests, spread evenly, the first and the last among them."""
    if requests <= sample:
        return range(1, requests + 1)
    return sorted({1, requests, *(1 + (offset + i * requests // sample) % requests for i in range(sample))})


def tries(pair, is_whole, sample, offset):
    """The runs of a pair: numbers, and whether all from there on are refused."""
    if is_whole:
        return [(number, is_each) for number in range(1, pair.requests + 1) for is_each in (False, True)]
    return [(number, bool((number + offset) % 2)) for number in numbers(pair.requests, sample, offset)]


def chosen(program, shim, folder, word, is_states):
    """The runs to be tried of each row. Rows without a text or a limit that the program can take are left out."""
    for number, row in enumerate(rows()):
        words, room = row.words(), os.path.join(folder, str(number))
        is_checked = CALLS.intersection(row.values("call")) and row.values("document") and row.values("schema")
        if not is_checked or words is None or word not in row.name:
            continue
        if not is_states:
            yield Pair(program, shim, room, row, words)
        elif row.values("call") == ["series"] and set(row.values("status")[0]) <= set("01, "):
            yield Series(program, shim, room, row)


def main():
    """Tries each row, and prints what is to be told."""
    reader = argparse.ArgumentParser(description=__doc__, formatter_class=argparse.RawDescriptionHelpFormatter)
    reader.add_argument("--sample", type=int, default=12)
    reader.add_argument("--jobs", type=int, default=1)
    reader.add_argument("--states", action="store_true")
    reader.add_argument("--library", action="store_true")
    reader.add_argument("program", nargs="?")
    reader.add_argument("word", nargs="?", default="")
    given = reader.parse_args()
    program = os.path.abspath(given.program or (ROW_PROGRAM if given.states else PROGRAM))
    if not os.access(program, os.X_OK):
        print(f"refused: {program} is not there; rt ci or rt run makes it")
        return 1
    count, wrong, whole = {"told": 0, "hint": 0, "other": 0}, [], set()
    with tempfile.TemporaryDirectory() as folder, concurrent.futures.ThreadPoolExecutor(given.jobs) as pool:
        source, shim = os.path.join(folder, "shim.c"), os.path.join(folder, "shim.so")
        with open(source, "w", encoding="utf-8") as file:
            file.write(SHIM)
        subprocess.run(["cc", "-O1", "-shared", "-fPIC", "-fno-builtin", "-o", shim, source], check=True)
        if given.library:
            for kind, line in tried_calls(program, shim, folder, given.sample):
                count[kind] += 1
                if line:
                    print(line, flush=True)
        pairs = [] if given.library else chosen(program, shim, folder, given.word, given.states)
        for offset, runs in enumerate(pairs):
            runs.begin()
            name = runs.row.name
            is_whole = name in WHOLE and name not in whole
            if is_whole:
                whole.add(name)
            if (is_whole or given.states) and not runs.is_right():
                wrong.append(f"{name}: the answer is {runs.right!r}")
            numbered = tries(runs, is_whole, given.sample, offset)
            if given.states:
                numbered = [(number, False) for number in numbers(runs.requests, 50 * given.sample, offset)]
            for kind, line in pool.map(lambda one: runs.refuse(*one), numbered):
                count[kind] += 1
                if line:
                    print(line, flush=True)
    if not given.states and not given.library:
        wrong += [f"{name}: there is no such row" for name in WHOLE if given.word in name and name not in whole]
    for line in wrong:
        print(line)
    print(f"refused: {sum(count.values())} runs, {count['told']} told, {count['hint']} whole all the same, {count['other']} otherwise")
    return 1 if wrong or count["other"] or not count["told"] else 0


if __name__ == "__main__":
    sys.exit(main())
