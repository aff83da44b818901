#!/usr/bin/env python3
"""Times the calls and the stops of running threads: running.py [PROGRAM] [calls|stops ..]

PROGRAM is crates/bench_running/out/bench_running by default; its source says what it measures, kind by kind. Where
cargo is there, the plain Rust program in twin/ runs the same loops in turn with PROGRAM, and each row has the ratio of
the two. A row of calls has nanoseconds a turn, the least and the median of seven runs. A row of stops has microseconds,
the median and the 99th percentile of the stops of thirty-one runs, and of three runs where threads are busy. Where one
thread runs at a time, as where all others are in native code, both programs take turns on one core. Where the `javac`
of a JDK 17 is there, HotSpot makes its own such stops behind them (hotspot/), in three runs, and the row ends in the
ratio to HotSpot.

Both programs ask by queries, which take no memory. In the rows of boxed callbacks they ask by a closure in a box for
each thread. The programs make jobs before the time of their stop begins, and free a box within that time. HotSpot makes
no such stops.

Compare only ratios of one run: the same machine differs by a factor of two from minute to minute.
"""
import contextlib
import os
import pathlib
import re
import shutil
import statistics
import subprocess
import sys
import tempfile

from cores import one_core
from plain import plain

HERE = pathlib.Path(__file__).resolve().parent
PROGRAM = HERE.parent / "crates/bench_running/out/bench_running"

# What HotSpot's calls for tests and its handshake of all threads take.
JAVA_FLAGS = ["--add-modules", "jdk.incubator.foreign", "-XX:+UnlockDiagnosticVMOptions", "-XX:+WhiteBoxAPI",
              "-XX:-DisplayVMOutput", "-Xmx256m"]

# What, the kind, threads, turns, the argument, how the twin is built, and which ratio is wanted at most.
CALLS = [
    ("back edge", 1, 1, 5_000_000, 0, "", 1.10),
    ("call and return by hint", 2, 1, 3_000_000, 0, "", 1.00),
    ("the same, the thread lent", 13, 1, 3_000_000, 0, "", None),
    ("call and return, interpreted", 12, 1, 3_000_000, 0, "", 1.10),
    ("call and return, 16 deep", 3, 1, 1_500_000, 16, "", 1.10),
    ("call and return, 256 deep", 3, 1, 1_499_904, 256, "", None),
    ("the same, nets in a sorted list", 3, 1, 1_499_904, 256, "sorted", 1.10),
    ("2 publications, nothing changed", 4, 1, 400_000, 0, "", 1.15),
    ("2 publications of 1 code", 4, 1, 200_000, 1, "", 1.15),
    ("2 publications of 8 codes", 4, 1, 44_000, 8, "", 1.00),
    ("2 publications of 256 codes", 4, 1, 1_500, 256, "sorted", 1.15),
    ("into native code and back", 5, 1, 1_000_000, 0, "", 1.10),
    ("4 threads publish each pair", 9, 4, 400_000, 1, "packed", 0.40),
    ("4 threads publish each 16 pairs", 9, 4, 800_000, 16, "packed", 0.70),
]

# What, the kind, and whether HotSpot makes such stops.
STOPS = [("handshake", 6, True), ("handshake, boxed callbacks", 10, False), ("census", 7, True), ("reclaim", 8, True)]

THREADS = (1, 4, 16, 64)

# A run makes no further stop after six seconds. One that isn't over after so many is taken to have no end.
LONGEST = 60

# How many stops of threads that make back edges a run has, by their number.
BUSY = {1: 300, 4: 60, 16: 15, 64: 15}

# The number of runs of a row. A run of native threads lasts a millisecond, and takes a fourth more or less than the run
# before.
CALL_RUNS = 7
NATIVE_RUNS = 31
BUSY_RUNS = 3


def hotspot(folder):
    """The words that run HotSpot's stops, or nothing, and a line that says so, where there is no JDK 17."""
    said = subprocess.run(["javac", "-version"], capture_output=True, text=True).stdout if shutil.which("javac") else ""
    if not re.match(r"javac 17\b", said):
        print(f"HotSpot isn't measured: {said.strip() or 'no javac'} is here, and it takes that of a JDK 17",
              flush=True)
        return None
    boot, main = os.path.join(folder, "boot"), os.path.join(folder, "main")
    subprocess.run(["javac", "-nowarn", "-d", boot, HERE / "hotspot/sun/hotspot/WhiteBox.java"], check=True)
    words = ["javac", "-nowarn", "--add-modules", "jdk.incubator.foreign", "-cp", boot, "-d", main,
             HERE / "hotspot/Stops.java"]
    subprocess.run(words, check=True, stderr=subprocess.DEVNULL)
    return ["java", f"-Xbootclasspath/a:{boot}", *JAVA_FLAGS, "-cp", main, "Stops"]


def times(words):
    """The times that a run prints, or none where it comes to no end."""
    try:
        said = subprocess.run(
            [str(word) for word in words], check=True, capture_output=True, text=True, timeout=LONGEST).stdout
    except subprocess.TimeoutExpired:
        return []
    return [int(word) for word in said.split()]


def mean_of(words):
    """The mean of the times that a run prints."""
    values = times(words)
    if not values:
        sys.exit(f"{words} came to no end in {LONGEST} seconds")
    return statistics.mean(values)


def percentile(values, part):
    return sorted(values)[min(len(values) - 1, len(values) * part // 100)]


def in_turn(runners, count):
    """The runners so many times, forwards and backwards by turns: so none always comes behind the same other."""
    for turn in range(count):
        yield from runners if turn % 2 == 0 else reversed(runners)


def call_row(program, twin, row):
    what, kind, threads, turns, arg, engine, wanted = row
    ours, theirs = [], []
    words = [kind, threads, turns, arg]
    runners = [(ours, [program, *words])]
    if twin:
        runners.append((theirs, [twin, *words, *([engine] if engine else [])]))
    with one_core() if threads == 1 else contextlib.nullcontext():
        for values, command in in_turn(runners, CALL_RUNS):
            values.append(mean_of(command) / turns)
    line = f"{what:34} {min(ours):9.2f} {statistics.median(ours):9.2f}"
    if twin:
        least, middle = min(ours) / min(theirs), statistics.median(ours) / statistics.median(theirs)
        line += f" {min(theirs):9.2f} {statistics.median(theirs):9.2f} {least:6.2f} {middle:6.2f}   {wanted or '-'}"
    print(line, flush=True)


def two(values):
    """The median and the 99th percentile in microseconds."""
    return f"{percentile(values, 50) / 1e3:9.1f} {percentile(values, 99) / 1e3:9.1f}"


def stop_row(program, twin, java, what, kind, threads, native):
    """A row of stops: of the program and the plain program, in turn, and behind them of HotSpot.

    The row has the plain program and HotSpot only where they are there.
    """
    words = [kind, threads, 300 if native else BUSY[threads], 1 if native else 0]
    ours, plains, hotspots = [], [], []
    runners = [(ours, [program, *words])]
    if twin:
        runners.append((plains, [twin, *words, "16yields"]))
    with one_core() if native else contextlib.nullcontext():
        for values, command in in_turn(runners, NATIVE_RUNS if native else BUSY_RUNS):
            values += times(command)
    for _ in range(BUSY_RUNS if java else 0):
        hotspots += times([*java, *words])
    if not ours:
        sys.exit(f"{program} {words} came to no end in {LONGEST} seconds")
    name = f"{what}, {threads} {'in native code' if native else 'busy'}"
    line = f"{name:45} {two(ours)}"
    for values in ([plains] if twin else []) + ([hotspots] if java else []):
        # HotSpot may make none in its time
        line += (f" {two(values)} {percentile(ours, 50) / percentile(values, 50):8.3g}" if values else
                 f" {'-':>9} {'-':>9} {'-':>8}")
    print(line, flush=True)


def stop_table(program, twin, java):
    beside = (["plain"] if twin else []) + (["HotSpot"] if java else [])
    head = "".join(f" {name:>9} {'':>9} {'ratio':>8}" for name in beside)
    print(f"{'us a stop: median, 99th percentile':45} {'product':>9} {'':>9}{head}")
    for what, kind, in_java in STOPS:
        for native in (True, False):
            for threads in THREADS:
                stop_row(program, twin, java if in_java else None, what, kind, threads, native)


def main():
    words = sys.argv[1:]
    tables = [word for word in words if word in ("calls", "stops")] or ["calls", "stops"]
    rest = [word for word in words if word not in ("calls", "stops")]
    program = os.path.abspath(rest[0] if rest else PROGRAM)
    with tempfile.TemporaryDirectory() as folder:
        twin = plain("twin", folder)
        if "calls" in tables:
            beside = f" {'plain':>9} {'':>9} {'ratio':>6}" if twin else ""
            print(f"{'ns a turn: least, median':34} {'product':>9} {'':>9}{beside}{' median  wanted' if twin else ''}")
            for row in CALLS:
                call_row(program, twin, row)
        if "stops" in tables:
            stop_table(program, twin, hotspot(folder))


if __name__ == "__main__":
    main()
