#!/usr/bin/env python3
"""Counts the instructions of `monitor replay` and of the plain Rust program.

Usage: instructions.py [PROGRAM] [LINES] [KIND ..]

PROGRAM is crates/monitor/out/monitor by default, LINES is 20,000, and the kinds are all of inputs.py. For each kind the
script prints the instructions of both programs a line, as callgrind counts them, and the ratio. The instructions at the
start of a run don't count: the script also runs an input of twice as many lines, and divides the difference of the two
counts by the number of further lines. The script needs valgrind and cargo. A count is the same whatever else the
machine does, but it says nothing of memory and of mispredicted jumps.
"""
import os
import re
import subprocess
import sys
import tempfile

import inputs
from plain import plain
from replay import MONITOR


def counted(words, path):
    """How many instructions the program of these words takes for the file."""
    with open(path, "rb") as source:
        tool = ["valgrind", "--tool=callgrind", "--callgrind-out-file=/dev/null", *words]
        run = subprocess.run(tool, stdin=source, stdout=subprocess.DEVNULL, stderr=subprocess.PIPE, text=True)
    said = re.search(r"Collected : (\d+)", run.stderr)
    if run.returncode != 0 or said is None:
        sys.exit(f"{words[0]} failed")
    return int(said[1])


def written(kind, lines, path):
    with open(path, "w", encoding="ascii") as out:
        return inputs.write(kind, lines, 1, out)


def a_line(words, files):
    """Instructions of one more line, by a shorter and a longer file, each with its lines."""
    (short, few), (long, many) = files
    return (counted(words, long) - counted(words, short)) / (many - few)


def main():
    words = sys.argv[1:]
    program = os.path.abspath(words[0] if words else MONITOR)
    lines = int(words[1]) if len(words) > 1 else 20_000
    print(f"{'input':10} {'product':>8} {'plain':>8} {'ratio':>6}")
    with tempfile.TemporaryDirectory() as folder:
        twin = plain("replay_twin", folder)
        for kind in words[2:] or inputs.KINDS:
            paths = [(os.path.join(folder, str(count)), count) for count in (lines, 2 * lines)]
            files = [(path, written(kind, count, path)) for path, count in paths]
            ours, theirs = a_line([program, "replay"], files), a_line([twin], files)
            print(f"{kind:10} {ours:8.0f} {theirs:8.0f} {ours / theirs:6.2f}", flush=True)


if __name__ == "__main__":
    main()
