#!/usr/bin/env python3
"""Times the calls and the stops of threads of C: safepoint.py [LIBSAFEPOINT [PROGRAM]] [polls|calls|stops ..]

LIBSAFEPOINT is crates/safepoint/out/libsafepoint.a by default, PROGRAM is crates/bench_running/out/bench_running. Where
PROGRAM is there, it runs the same loops in turn, inside Rattle, and each row has the ratio of the two. A row of calls
has nanoseconds a turn, the least and the median of seven runs on one core, and how much the least of C exceeds the
least of PROGRAM. A row of stops has microseconds, the median and the 99th percentile of the stops of three runs. A row
of polls has a loop of C alone, in processor time, and how much its least exceeds that of an empty loop. The C
compiler builds safepoint/measure.c with -O2, without link-time optimization, so that each call of C is a call.

Compare only ratios of one run: the same machine differs by a factor of two from minute to minute.
"""
import os
import pathlib
import shutil
import statistics
import subprocess
import sys
import tempfile

from cores import one_core

HERE = pathlib.Path(__file__).resolve().parent
ROOT = HERE.parent
CRATE = ROOT / "crates/safepoint"
LIBRARY = CRATE / "out/libsafepoint.a"
PROGRAM = ROOT / "crates/bench_running/out/bench_running"

# What, the kind, turns, the argument, and what is wanted at most: so many nanoseconds more, or so many times.
CALLS = [
    ("back edge", 1, 5_000_000, 0, "2 ns more"),
    ("call and return by hint", 2, 3_000_000, 0, "5 ns more"),
    ("call and return, interpreted", 12, 3_000_000, 0, "5 ns more"),
    ("call and return, 16 deep", 3, 1_500_000, 16, "5 ns more"),
    ("2 publications, nothing changed", 4, 400_000, 0, "-"),
    ("2 publications of 1 code", 4, 200_000, 1, "-"),
    ("2 publications of 8 codes", 4, 44_000, 8, "-"),
    ("into native code and back", 5, 1_000_000, 0, "1.5 times"),
]

# What, the kind, turns, how many are in a turn, and what is wanted at most beside an empty loop.
POLLS = [
    ("empty loop", 30, 20_000_000, 1, "-"),
    ("poll in line", 31, 20_000_000, 1, "1 ns more"),
    ("back edge", 32, 5_000_000, 1, "-"),
    ("switch of coroutines", 33, 500_000, 2, "-"),
]

STOPS = [("handshake", 6), ("census", 7), ("reclaim", 8)]

THREADS = (1, 4, 16, 64)

# How many stops of threads that make back edges a run has, by their number.
BUSY = {1: 300, 4: 60, 16: 15, 64: 15}

WANTED = "2 times"

TABLES = ["polls", "calls", "stops"]


def kit():
    """The toolchain's folder, which has the archive by which the library takes memory of the C library."""
    page = subprocess.run(["rt", "doc"], capture_output=True, text=True, check=True).stdout.strip()
    return pathlib.Path(page).parent


def built(library, folder):
    program = pathlib.Path(folder) / "measure"
    sources = [HERE / "safepoint/measure.c", *sorted((CRATE / "waits").glob("*.c")), library, kit() / "c/liblibc_c.a"]
    words = [os.environ.get("CC", "cc"), "-std=gnu11", "-O2", "-Wall", "-Wextra", "-I", CRATE / "include",
             "-o", program, *sources, "-lpthread"]
    subprocess.run(words, check=True)
    return program


def times(words):
    """The times that a run prints."""
    said = subprocess.run([str(word) for word in words], check=True, capture_output=True, text=True, timeout=600).stdout
    return [int(word) for word in said.split()]


def percentile(values, part):
    return sorted(values)[min(len(values) - 1, len(values) * part // 100)]


def call_row(programs, row):
    what, kind, turns, arg, wanted = row
    found = [[] for _ in programs]
    with one_core():
        for _ in range(7):
            for program, values in zip(programs, found):
                values.append(statistics.mean(times([program, kind, 1, turns, arg])) / turns)
    line = f"{what:34}" + "".join(f" {min(values):9.2f} {statistics.median(values):9.2f}" for values in found)
    if len(found) > 1:
        ours, theirs = (min(values) for values in found)
        line += f" {ours - theirs:7.2f} {ours / theirs:7.2f}   {wanted}"
    print(line, flush=True)


def poll_rows(program):
    """All loops in turn, seven times."""
    found = [[] for _ in POLLS]
    with one_core():
        for _ in range(7):
            for values, (_, kind, turns, each, _) in zip(found, POLLS):
                values.append(statistics.mean(times([program, kind, 1, turns, 0])) / turns / each)
    for values, (what, _, _, _, wanted) in zip(found, POLLS):
        more = min(values) - min(found[0])
        print(f"{what:34} {min(values):9.2f} {statistics.median(values):9.2f} {more:9.2f}   {wanted}", flush=True)


def stop_row(programs, what, kind, threads, native):
    found = [[] for _ in programs]
    for _ in range(3):
        for program, values in zip(programs, found):
            values += times([program, kind, threads, 300 if native else BUSY[threads], 1 if native else 0])
    name = f"{what}, {threads} {'in native code' if native else 'busy'}"
    line = f"{name:34}" + "".join(
        f" {percentile(values, 50) / 1e3:9.1f} {percentile(values, 99) / 1e3:9.1f}" for values in found)
    if len(found) > 1:
        line += f" {percentile(found[0], 50) / percentile(found[1], 50):15.2f}   {WANTED}"
    print(line, flush=True)


def main():
    words = sys.argv[1:]
    tables = [word for word in words if word in TABLES] or TABLES
    rest = [pathlib.Path(word).resolve() for word in words if word not in TABLES]
    library, program = [*rest, *[LIBRARY, PROGRAM][len(rest) :]][:2]
    if shutil.which(os.environ.get("CC", "cc")) is None:
        sys.exit("there is no C compiler")
    with tempfile.TemporaryDirectory() as folder:
        programs = [built(library, folder), *([program] if program.is_file() else [])]
        beside = f" {'Rattle':>9} {'':>9} {'more':>7} {'times':>7}   wanted" if len(programs) > 1 else ""
        if "polls" in tables:
            print(f"{'ns a turn: least, median':34} {'C':>9} {'':>9} {'more':>9}   wanted")
            poll_rows(programs[0])
        if "calls" in tables:
            print(f"{'ns a turn: least, median':34} {'C':>9} {'':>9}{beside}")
            for row in CALLS:
                call_row(programs, row)
        if "stops" in tables:
            print(f"{'us a stop: median, 99th percentile':34} {'C':>9} {'':>9}{beside}")
            for what, kind in STOPS:
                for native in (True, False):
                    for threads in THREADS:
                        stop_row(programs, what, kind, threads, native)


if __name__ == "__main__":
    main()
