#!/usr/bin/env python3
"""Makes the proved archive of the library for C over what `rt ci` has proved: scripts/proved_archive.py

`rt ci` proves graphql_checked_c as a library, and makes no archive of it. Only what is written in the root of an archive can be called
from C, so this writes a root: of each call of src/schemas.rt one of the same name, arguments and clauses, whose body is that call. It
proves the root over the libraries that `rt ci` left in out/rlib of each crate, and builds out/libgraphql_checked_c.a of it. It tells the
verdict, which is to rest on no more than `rt ci` allows, and how many processor seconds it took. The status is 0 where that is proved
and built, and 1 where it is not, or where a library is not there or is older than a source: then nothing is built.
"""
import os
import re
import resource
import shutil
import subprocess
import sys
import tempfile

sys.dont_write_bytecode = True
TOP = os.path.dirname(os.path.dirname(os.path.abspath(__file__)))
LIBRARY = "graphql_checked_c"
ROOT = "graphql_checked_archive"
CALL = re.compile(r'(?m)^((?:///.*\n)+)#\[unsafe\(no_mangle\)\]\n(?:#\[tactic.*\n)?(pub extern "C" fn (\w+)\(((?:[^{]|\{[^\n]*\}\n)*?)\{)\n')
# Words of a verdict that tell of foreign code, threads, calls that may not end, or what the check could not do.
MORE = re.compile(r" (foreign|threads|hides|bugs|partial|may-\w+)=")


def root_of(source):
    """The root of the archive: a call of each of the functions for C in this source, under its own name and clauses."""
    ghosts = re.findall(r"(?m)^ghost use .*;\n", source)
    lines = ["//! The calls of the library for C.\n", "#![tactic(auto)]\n", "\n", *ghosts, "\n", f"use {LIBRARY}::Handle;\n", "use std::alloc::Global;\n"]
    for doc, head, name, rest in CALL.findall(source):
        arguments = re.findall(r"(\w+): ", rest.partition("\n)" if rest.startswith("\n") else ")")[0])
        lines += ["\n", doc, "#[unsafe(no_mangle)]\n", f"{head}\n", f"    {LIBRARY}::{name}({', '.join(arguments)})\n", "}\n"]
    return "".join(lines)


def newest(folder):
    """When the newest file that a proof of the crate reads was written."""
    parts = (os.walk(f"{folder}/{part}") for part in ("src", "specs", "proofs"))
    return max(os.path.getmtime(f"{at}/{name}") for part in parts for at, _, names in part for name in names)


def words_of(crate, kit):
    """The words that build the root as a static library, in its folder, over the libraries of the crate and of those below it."""
    crate.is_static = True
    words = crate.words(["--jobs", str(len(os.sched_getaffinity(0)))], keeps=False)
    words[words.index("--crate-name") + 1] = ROOT
    words[words.index("--links") + 1] = f"{ROOT}="
    words += ["--extern", f"{LIBRARY}={crate.rlib}", "-L", f"dependency={os.path.dirname(crate.rlib)}"]
    return [f"{kit}/bin/rattle", "build", *words, "--toolchain", f"{kit}/toolchain", "--backend", "llvm"]


def main():
    kit = os.path.dirname(os.path.dirname(os.path.realpath(shutil.which("rt") or "rt")))
    sys.path.insert(0, f"{kit}/bin")
    import rtlib

    folder = f"{TOP}/crates/{LIBRARY}"
    crate = rtlib.Crate(folder, TOP, {})
    for low in [*crate.below(), crate]:
        if not os.path.isdir(low.rlib) or os.path.getmtime(low.rlib) < newest(low.folder):
            print(f"proved_archive: {low.name} is not proved as it is: run `rt ci` first")
            return 1
    with open(f"{folder}/src/schemas.rt", encoding="utf-8") as file:
        source = file.read()
    root = root_of(source)
    if root.count("no_mangle") != source.count("no_mangle"):
        print("proved_archive: not every call of schemas.rt is read")
        return 1
    archive, made = f"{folder}/out/lib{LIBRARY}.a", f"{folder}/out/lib{LIBRARY}.new.a"
    with tempfile.TemporaryDirectory() as room:
        os.mkdir(f"{room}/src")
        with open(f"{room}/src/lib.rt", "w", encoding="utf-8") as file:
            file.write(root)
        how = {"cwd": room, "stdin": subprocess.DEVNULL, "stdout": subprocess.PIPE, "stderr": subprocess.STDOUT, "text": True, "errors": "replace"}
        done = subprocess.run([*words_of(crate, kit), "-o", made], **how)
    verdict = [line for line in done.stdout.splitlines() if line.startswith("logic=")]
    is_proved = done.returncode == 0 and len(verdict) == 1 and rtlib.VERDICT.fullmatch(f"{verdict[0]}\n") is not None
    if not is_proved or MORE.search(verdict[0]) or not os.path.isfile(made):
        print(done.stdout)
        print("proved_archive: it is not proved, or its verdict rests on what those of `rt ci` do not")
        return 1
    os.replace(made, archive)
    used = resource.getrusage(resource.RUSAGE_CHILDREN)
    print(f"{LIBRARY}: {verdict[0]}; {used.ru_utime + used.ru_stime:.0f} processor seconds")
    return 0


if __name__ == "__main__":
    sys.exit(main())
