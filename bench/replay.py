#!/usr/bin/env python3
"""Times `monitor replay` on generated inputs: replay.py [PROGRAM] [LINES] [SEED] [KIND ..]

PROGRAM is crates/monitor/out/monitor by default, LINES is 2,000,000, SEED is 1, and the kinds are all of inputs.py. For
each kind the script prints lines a second (by the clock), nanoseconds of processor time a line (the least and the
median of seven runs), and peak memory. Beside them are the figures of `wc -l` and of echo.c, a plain program that reads
and writes the same lines. Where cargo is there, the plain Rust program in twin/ gives the same answers in turn with
PROGRAM, and PROGRAM's row ends in the ratios of the two. All of the programs take turns on one core. The script needs a
C compiler (CC, or cc) for echo.c, and for measure.c, which measures.

The aim is 8 million lines a second on a quiet core for frames, handshake, census and reclaim, and at most 8 MB whatever
the length.
"""
import os
import pathlib
import statistics
import subprocess
import sys
import tempfile

import inputs
from cores import one_core
from plain import plain

HERE = pathlib.Path(__file__).resolve().parent
MONITOR = HERE.parent / "crates/monitor/out/monitor"
RUNS = 7


def built(name, folder):
    """The C program of that name beside this file."""
    path = os.path.join(folder, name)
    subprocess.run([os.environ.get("CC", "cc"), "-O2", "-o", path, str(HERE / f"{name}.c")], check=True)
    return path


def measured(measure, words, path):
    """Runs the program on the file: seconds by the clock, seconds of processor time, peak memory in KB."""
    with open(path, "rb") as source:
        run = subprocess.run([measure, *words], stdin=source, stdout=subprocess.PIPE, text=True)
    if run.returncode != 0:
        sys.exit(f"{words[0]} failed")
    return tuple(float(word) for word in run.stdout.split())


def runs(measure, programs, path):
    """The measurements of each program, given by its words, in runs that the programs make in turn.

    The first turn brings the file into memory, and doesn't count.
    """
    turns = [[measured(measure, words, path) for words in programs] for _ in range(RUNS + 1)]
    return list(zip(*turns[1:]))


def costs(lines, measures):
    """Nanoseconds of processor time a line: the least and the median."""
    times = [processor / lines * 1e9 for _, processor, _ in measures]
    return min(times), statistics.median(times)


def row(kind, name, lines, measures, beside):
    rate, peak = lines / min(clock for clock, _, _ in measures) / 1e6, max(memory for _, _, memory in measures) / 1024
    least, median = costs(lines, measures)
    line = f"{kind:10} {name:8} {rate:10.2f} {least:10.1f} {median:8.1f} {peak:8.1f}"
    if beside:
        of_least, of_median = costs(lines, beside)
        line += f" {least / of_least:8.2f} {median / of_median:6.2f}"
    print(line, flush=True)


def same_answers(program, twin, path):
    """Whether both write the same for the file."""
    said = []
    for words in ([program, "replay"], [twin]):
        with open(path, "rb") as source:
            said.append(subprocess.run(words, stdin=source, stdout=subprocess.PIPE, check=True).stdout)
    return said[0] == said[1]


def table(kind, lines, measure, program, echo, twin, path):
    """The rows of an input."""
    programs = {"monitor": [program, "replay"], "echo": [echo], "wc -l": ["wc", "-l"]}
    if twin:
        if not same_answers(program, twin, path):
            sys.exit(f"{kind}: the plain program answers otherwise")
        programs["plain"] = [twin]
    with one_core():
        measures = dict(zip(programs, runs(measure, programs.values(), path)))
    for name, own in measures.items():
        row(kind, name, lines, own, measures.get("plain") if name == "monitor" else None)


def main():
    words = sys.argv[1:]
    program = os.path.abspath(words[0] if words else MONITOR)
    lines = int(words[1]) if len(words) > 1 else 2_000_000
    seed = int(words[2]) if len(words) > 2 else 1
    kinds = words[3:] or list(inputs.KINDS)
    print(f"{'input':10} {'program':8} {'million/s':>10} {'ns/line':>10} {'median':>8} {'peak MB':>8} "
          f"{'ratio':>8} {'median':>6}")
    with tempfile.TemporaryDirectory() as folder:
        measure, echo, twin = built("measure", folder), built("echo", folder), plain("replay_twin", folder)
        path = os.path.join(folder, "input")
        for kind in kinds:
            with open(path, "w", encoding="ascii") as out:
                written = inputs.write(kind, lines, seed, out)
            table(kind, written, measure, program, echo, twin, path)


if __name__ == "__main__":
    main()
