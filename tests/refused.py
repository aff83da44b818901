#!/usr/bin/env python3
"""Runs a script on threads with each thread, and each growth of memory, refused in turn: refused.py PROGRAM

Where something is refused the program must say so, print nothing and end with status 1. Where all was given, or the run
didn't need it, the program prints the whole. A refused thread is told as `monitor: no thread`. So is a growth that is
refused while the threads are started, since the system names no cause there: these growths are one block, each next to
the other, and a growth before or behind that block is told as `monitor: no memory`. Each sweep ends after so many runs
in a row that met no refusal.

It needs a C compiler: without one both sweeps are skipped. The last line is `N passed, N failed, N skipped`; the status
is 0 where none failed.
"""
import os
import pathlib
import subprocess
import sys
import tempfile

import refusing
from tally import Tally, c_compiler

EXAMPLES = pathlib.Path(__file__).resolve().parent.parent / "examples"
SECONDS = 60
# More growths than any that can be refused without harm lie between two that can't.
QUIET = 50
# A sweep that comes so far has no end.
MOST = 2000
WHOLE = ((EXAMPLES / "loop.run").read_bytes(), b"", 0)
NO_MEMORY = (b"", b"monitor: no memory\n", 1)
NO_THREAD = (b"", b"monitor: no thread\n", 1)
NAMES = {WHOLE: "whole", NO_MEMORY: "no memory", NO_THREAD: "no thread"}


def ran(program, environment):
    """How a run of the script ended: what it printed, what it said, and its status."""
    command = [program, "run", EXAMPLES / "loop.json"]
    try:
        it = subprocess.run(command, capture_output=True, timeout=SECONDS, env=environment)
    except (OSError, subprocess.TimeoutExpired) as why:
        return b"", str(why).encode(), None
    return it.stdout, it.stderr, it.returncode


def swept(program, library, kind):
    """How each run ended, the first with the first growth or thread refused, and so on until nothing is refused."""
    ends = []
    while ends[-QUIET:] != [WHOLE] * QUIET and len(ends) < MOST:
        ends.append(ran(program, refusing.asking(library, kind, len(ends) + 1)))
        if ends[-1][2] is None:
            break
    return ends


def apart(ends):
    """What is wrong of a sweep of growths: those that are told as no thread are one block amid those of no memory."""
    first, behind = ends.index(NO_THREAD), len(ends) - ends[::-1].index(NO_THREAD)
    for number, end in enumerate(ends[first:behind], first + 1):
        if end != NO_THREAD:
            yield f"growth {number}, amid those told as no thread: {end}"
    for where, part in (("before", ends[:first]), ("behind", ends[behind:])):
        if NO_MEMORY not in part:
            yield f"no growth {where} those told as no thread is told as no memory"


def faults_of(ends, known):
    """What is wrong of a whole sweep whose runs end in known ways."""
    unmet = [f"no run ended with {NAMES[end]}" for end in known if end not in ends]
    endless = [f"it has no end after {MOST} runs"] if len(ends) == MOST else []
    return unmet + endless or (list(apart(ends)) if NO_MEMORY in known else [])


def judge(tally, kind, known, ends):
    """Judges each run of a sweep, and the whole sweep."""
    for number, end in enumerate(ends, 1):
        tally.judge(f"{kind}={number}", None if end in (WHOLE, *known) else f"it ended with {end}")
    counts = ", ".join(f"{ends.count(end)} {name}" for end, name in NAMES.items())
    tally.judge(kind, faults_of(ends, known), shows=counts)


def main():
    if len(sys.argv) != 2:
        sys.exit("refused.py PROGRAM")
    tally, program = Tally(), os.path.abspath(sys.argv[1])
    sweeps = {"REFUSE_THREAD": (NO_THREAD,), "REFUSE_GROWTH": (NO_MEMORY, NO_THREAD)}
    if tally.has(c_compiler(), *(f"{kind}, a sweep of {program}" for kind in sweeps)):
        with tempfile.TemporaryDirectory() as folder:
            library = refusing.built_in(folder)
            for kind, known in sweeps.items():
                judge(tally, kind, known, swept(program, library, kind))
    return tally.end()


if __name__ == "__main__":
    sys.exit(main())
