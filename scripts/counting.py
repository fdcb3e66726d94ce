"""Runs a program and tells what it took: the instructions, the most memory that it held, its processor time.

Instructions are counted by `perf stat` or by valgrind's callgrind, the rest needs `time` as GNU has it. `speed.py` and `growth.py`
measure with this."""

import os
import re
import resource
import shutil
import signal
import subprocess
import sys
from typing import NamedTuple, Optional

# What a program of this repository ends with where it is out of memory.
OUT_OF_MEMORY = 4


class Limits(NamedTuple):
    """What a run may take: processor seconds and MB."""

    seconds: int
    megabytes: int

    def set(self):
        """Sets them for the process that this is."""
        resource.setrlimit(resource.RLIMIT_CORE, (0, 0))
        resource.setrlimit(resource.RLIMIT_CPU, (self.seconds, self.seconds))
        most = self.megabytes << 20
        hard = resource.getrlimit(resource.RLIMIT_AS)[1]
        if hard != resource.RLIM_INFINITY:
            most = min(most, hard)
        resource.setrlimit(resource.RLIMIT_AS, (most, most))


class Run(NamedTuple):
    """How a run ended: its status, or which limit ended it, `seconds` or `memory`; what it wrote; its KB and processor seconds, if told."""

    status: Optional[int]
    cut: Optional[str]
    stdout: str
    stderr: str
    kilobytes: int = 0
    seconds: float = 0


def ended(status, stdout, stderr, limits=None):
    """How a run ended of which `time` wrote the last line of standard error."""
    found = re.search(r"held (\d+) ([\d.]+) ([\d.]+) \d+\n\Z", stderr)
    if not found:
        sys.exit(f"{os.path.basename(sys.argv[0])}: time told nothing: {stderr[-300:]}")
    stderr, kilobytes, spent = stderr[: found.start()], int(found[1]), float(found[2]) + float(found[3])
    if limits and (status > 128 or status < 0):
        return Run(None, "seconds", stdout, stderr, kilobytes, spent)
    return Run(status, "memory" if limits and status == OUT_OF_MEMORY else None, stdout, stderr, kilobytes, spent)


def run(words, folder, limits=None, stdin=None, stdout=subprocess.PIPE, environment=None):
    """Runs a program below GNU's time. With limits it is ended also where it takes much longer by the clock."""
    process = subprocess.Popen(
        ["/usr/bin/time", "-q", "-f", "held %M %U %S %x", *words], cwd=folder, env=environment, stdin=stdin, stdout=stdout,
        stderr=subprocess.PIPE, text=True, errors="replace", preexec_fn=limits and limits.set, start_new_session=True,
    )
    try:
        stdout, stderr = process.communicate(timeout=20 * limits.seconds if limits else None)
    except subprocess.TimeoutExpired:
        return Run(None, "seconds", "", "")
    finally:
        if process.poll() is None:
            os.killpg(process.pid, signal.SIGKILL)
            process.communicate()
    return ended(process.returncode, stdout or "", stderr, limits)


def told_by_perf(text):
    """The instructions that perf has counted, by the file that it writes; none if it counts nothing."""
    found = re.search(r"^(\d+),[^,]*,instructions", text, re.M)
    return int(found[1]) if found else None


def told_by_callgrind(stderr):
    """The instructions that callgrind has counted, by what it writes on standard error; none if it counts nothing."""
    found = re.search(r"Collected : (\d+)", stderr)
    return int(found[1]) if found else None


class Counter:
    """What counts instructions: `perf` where the machine counts them, else `callgrind`, or always that one."""

    def __init__(self, folder, name=None):
        self.out = os.path.join(folder, "counted")
        self.name = name or ("perf" if self.has_perf() else "callgrind")

    def has_perf(self):
        """Whether this machine counts instructions."""
        try:
            return subprocess.run([*self.perf(), "true"], capture_output=True, check=False).returncode == 0 and self.read() is not None
        except OSError:
            return False

    def perf(self):
        """How perf is called."""
        return ["perf", "stat", "-x,", "-e", "instructions:u", "-o", self.out]

    def read(self):
        """What perf has counted, if it has."""
        with open(self.out, encoding="utf-8") as file:
            return told_by_perf(file.read())

    def count(self, words, folder, **how):
        """Runs a program as `run` does, and gives how it ended and the instructions, none where it was cut off or nothing was counted."""
        # Its path, since a program without an environment has no PATH.
        counter = self.perf() if self.name == "perf" else [shutil.which("valgrind") or "valgrind", "--tool=callgrind", "--callgrind-out-file=/dev/null"]
        done = run([*counter, *words], folder, **how)
        if done.cut:
            return done, None
        return done, self.read() if self.name == "perf" else told_by_callgrind(done.stderr)
