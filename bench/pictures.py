#!/usr/bin/env python3
"""Times pictures of parts of long runs beside `monitor replay`.

Usage: pictures.py [MONITOR] [TIMELINE] [LINES] [SEED] [KIND ..]

MONITOR and TIMELINE are the built programs by default, LINES is 10,000,000, SEED is 1, and the kinds are all of
inputs.py. The script draws the first 500 lines of each run, 500 of its middle and its last 500. A row has seconds by
the clock (the least of three runs in turn), the seconds beyond those of `monitor replay`, and peak memory. The script
needs a C compiler (CC, or cc) for measure.c.

The aim is at most a second more than `monitor replay`, in at most 64 MB. The status is 0 where all rows meet it.
"""
import os
import pathlib
import sys
import tempfile

import inputs
from replay import MONITOR, built, measured

TIMELINE = pathlib.Path(__file__).resolve().parent.parent / "crates/timeline/out/timeline"
DRAWN = 500
RUNS = 3
MORE_SECONDS, MEGABYTES = 1.0, 64.0


def parts(lines):
    """The words for each part."""
    firsts = {"first": 1, "middle": lines // 2, "last": lines - DRAWN + 1}
    return {name: ["--from", str(first), "--to", str(first + DRAWN - 1)] for name, first in firsts.items()}


def table(kind, lines, measure, monitor, timeline, path):
    """The rows of a run; whether all meet the aim."""
    programs = {"replay": [monitor, "replay"], **{name: [timeline, *words] for name, words in parts(lines).items()}}
    turns = [{name: measured(measure, words, path) for name, words in programs.items()} for _ in range(RUNS)]
    clock = {name: min(turn[name][0] for turn in turns) for name in programs}
    peak = {name: max(turn[name][2] for turn in turns) / 1024 for name in programs}
    for name in programs:
        print(f"{kind:10} {name:7} {clock[name]:8.2f} {clock[name] - clock['replay']:+8.2f} {peak[name]:8.1f}",
              flush=True)
    drawn = [name for name in programs if name != "replay"]
    return all(clock[name] <= clock["replay"] + MORE_SECONDS and peak[name] <= MEGABYTES for name in drawn)


def main():
    words = sys.argv[1:]
    monitor, timeline = (
        os.path.abspath(words[i] if len(words) > i else it) for i, it in enumerate((MONITOR, TIMELINE)))
    lines = int(words[2]) if len(words) > 2 else 10_000_000
    seed = int(words[3]) if len(words) > 3 else 1
    met = True
    print(f"{'input':10} {'drawn':7} {'seconds':>8} {'more':>8} {'peak MB':>8}")
    with tempfile.TemporaryDirectory() as folder:
        measure = built("measure", folder)
        path = os.path.join(folder, "input")
        for kind in words[4:] or list(inputs.KINDS):
            with open(path, "w", encoding="ascii") as out:
                written = inputs.write(kind, lines, seed, out)
            met &= table(kind, written, measure, monitor, timeline, path)
    sys.exit(0 if met else 1)


if __name__ == "__main__":
    main()
