#!/usr/bin/env python3
"""Counts how the instructions of a line of `monitor replay` grow: growth.py [PROGRAM] [ROUNDS]

PROGRAM is crates/monitor/out/monitor by default, ROUNDS is 500. One thread works, in rounds of the same lines. Beside
it there are more and more places with started threads, open operations that aren't told to it, or codes that it doesn't
call. For each of these the script prints the instructions of one more line, of the program and of the plain Rust
program, as instructions.py counts them: a line costs nothing for what neither program touches. The script needs
valgrind and cargo.
"""
import os
import sys
import tempfile

import inputs
from instructions import a_line
from plain import plain
from replay import MONITOR

# The lines of the thread at place 0 in a round. The thread's code is the first that was installed. The thread begins a
# round with an empty stack, and ends the round with one.
WORK = {
    "calls": ["enter 0 0 1", "enter 0 1", "leave 0", "leave 0"],
    "publishes": ["enter 0 0 1", *inputs.published(0, 1), "leave 0", *inputs.published(0, 1)],
    "crosses": ["tonative 0", "wake 0", "cross 0", "edge 0"],
}


def with_places(count):
    return [f"size {count} 1024 256", *inputs.started(count), "install 0"]


def with_operations(count):
    """So many open handshakes of another thread, each told to it."""
    others = [line for _ in range(count) for line in ("ask depth 2", "open", "tell 2")]
    return ["size 64 1024 256", *inputs.started(2), "install 0", *others]


def with_codes(count):
    return ["size 1 1024 256", *inputs.started(1), *(f"install {method}" for method in range(count))]


GROWN = {
    "places": (with_places, (1, 8, 64)),
    "operations": (with_operations, (1, 2, 3, 4)),
    "codes": (with_codes, (2, 16, 64, 256)),
}


def written(before, work, rounds, path):
    lines = before + work * rounds
    with open(path, "w", encoding="ascii") as out:
        out.write("\n".join(lines) + "\n")
    return path, len(lines)


def main():
    words = sys.argv[1:]
    program = os.path.abspath(words[0] if words else MONITOR)
    rounds = int(words[1]) if len(words) > 1 else 500
    with tempfile.TemporaryDirectory() as folder:
        twin = plain("replay_twin", folder)
        for grown, (before, counts) in GROWN.items():
            print(f"{grown:12}" + "".join(f"{count:>14}" for count in counts), flush=True)
            for kind, work in WORK.items():
                files = [[written(before(count), work, many, os.path.join(folder, f"{count}.{many}"))
                          for many in (rounds, 2 * rounds)] for count in counts]
                rows = [(a_line([program, "replay"], file), a_line([twin], file)) for file in files]
                print(f"{kind:12}" + "".join(f"{ours:7.0f} {theirs:6.0f}" for ours, theirs in rows), flush=True)


if __name__ == "__main__":
    main()
