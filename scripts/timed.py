#!/usr/bin/env python3
"""Runs a command, and tells where its minutes went: scripts/timed.py COMMAND..

What the command prints is passed on as it comes, and its status is this script's. At the end two lines tell the minutes by the
clock, the processor minutes of the command itself and of what it started, and of `rt ci` how many crates were proved after each ten
minutes, and when and which the last was.
"""
import os
import re
import resource
import subprocess
import sys
import threading
import time

TICKS = os.sysconf("SC_CLK_TCK")


def own_seconds(pid):
    """The processor seconds of a process, without what it started; None where it has ended."""
    try:
        with open(f"/proc/{pid}/stat", encoding="utf-8") as file:
            fields = file.read().rpartition(")")[2].split()
    except OSError:
        return None
    return (int(fields[11]) + int(fields[12])) / TICKS


def watched(pid, seen):
    """Notes the processor seconds of a process as long as it runs."""
    while (found := own_seconds(pid)) is not None:
        seen.append(found)
        time.sleep(2)


def by_tens(proved):
    """How many crates were proved after each ten minutes."""
    last = int(max(minute for minute, _ in proved) // 10) + 1
    return ", ".join(f"{10 * tens}: {sum(minute < 10 * tens for minute, _ in proved)}" for tens in range(1, last + 1))


def main(words):
    begun, proved, seen = time.time(), [], [0.0]
    running = subprocess.Popen(words, stdout=subprocess.PIPE, text=True, errors="replace")
    threading.Thread(target=watched, args=(running.pid, seen), daemon=True).start()
    for line in running.stdout:
        print(line, end="", flush=True)
        found = re.match(r"(?:rt: )?(\w+) proved$", line.strip())
        if found:
            proved.append(((time.time() - begun) / 60, found[1]))
    status = running.wait()
    used = resource.getrusage(resource.RUSAGE_CHILDREN)
    minutes, total = (time.time() - begun) / 60, (used.ru_utime + used.ru_stime) / 60
    own = seen[-1] / 60
    print(f"timed: {minutes:.1f} minutes; {own:.1f} processor minutes of {words[0]} itself, {total - own:.1f} of what it started, {total / minutes:.1f} at a time")
    if proved:
        print(f"timed: proved after minutes {by_tens(proved)}; the last at {proved[-1][0]:.1f}, {proved[-1][1]}")
    return status


if __name__ == "__main__":
    sys.exit(main(sys.argv[1:]))
