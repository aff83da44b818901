#!/usr/bin/env python3
"""Runs programs with the main stack that pages ask for, and measures what calls of C take: stacks.py [--least] FILE ..

FILE is a built program, `monitor`, `timeline` or `confirm`, or `libsafepoint.a`. With a main stack of STACK_KB a
program must write and answer what it does with a large one, on each example, on logs of calls and on bad words. Each
call of the library must take no more than CALL_BYTES of its thread's stack (`safepoint_stack.c`). With --least it
prints only how many KB of main stack each program wants, in steps of 4.
The last line is `N passed, N failed, N skipped`; the status is 0 where none failed.
"""
import pathlib
import resource
import subprocess
import sys
import tempfile

from tally import Tally, c_compiler

TESTS = pathlib.Path(__file__).resolve().parent
ROOT = TESTS.parent
EXAMPLES, LOGS, CRATE = ROOT / "examples", TESTS / "confirm", ROOT / "crates" / "safepoint"
SECONDS = 120
STACK_KB, LARGE_KB = 256, 8192
CALL_BYTES = 12288
# A script that nests so often nests deeper than the reader follows, and takes the most of a stack.
NESTED = 5000


def given_lines(*words):
    return [(words, path.read_bytes()) for path in sorted(EXAMPLES.glob("*.lines"))]


def of_monitor():
    scripts = sorted(EXAMPLES.glob("*.json"))
    runs = [(("run", path.with_suffix(".json")), b"") for path in sorted(EXAMPLES.glob("*.run"))]
    nested = [(("check", "/dev/stdin"), it * NESTED) for it in (b"[", b'{"a":')]
    return [*given_lines("replay"), *((("check", path), b"") for path in scripts), *runs, *nested, (("bad",), b"")]


def of_timeline():
    return [*given_lines(), *given_lines("--html"), *given_lines("--from", "2", "--to", "5"), (("bad",), b"")]


def of_confirm():
    return [*(((), path.read_bytes()) for path in sorted(LOGS.glob("*.txt"))), ((), b"no log"), (("bad",), b"")]


# What each program is run on: its words, and its standard input.
RUNS = {"monitor": of_monitor, "timeline": of_timeline, "confirm": of_confirm}


def said(program, words, given, stack):
    """What a run with a main stack of so many KB writes and answers."""
    size = stack * 1024
    ran = subprocess.run([program, *words], input=given, capture_output=True, timeout=SECONDS,
                         preexec_fn=lambda: resource.setrlimit(resource.RLIMIT_STACK, (size, size)))
    return ran.stdout, ran.stderr, ran.returncode


def differing(program, runs, stack):
    """The runs that write or answer something else than with a large stack, or that a signal ends there too."""
    for words, given in runs:
        wanted = said(program, words, given, LARGE_KB)
        if wanted[2] < 0 or said(program, words, given, stack) != wanted:
            yield " ".join(map(str, words)) or f"{len(given)} bytes of input"


def least(program, runs):
    """The least main stack in KB with which no run differs."""
    low, high = 0, LARGE_KB
    while high - low > 4:
        middle = (low + high) // 8 * 4
        low, high = (middle, high) if any(differing(program, runs, middle)) else (low, middle)
    return high


def calls(tally, library):
    """What each call of a thread takes of its stack."""
    name = "what calls take of a thread's stack"
    if not tally.has(c_compiler(), name):
        return
    kit = pathlib.Path(subprocess.run(["rt", "doc"], capture_output=True, text=True, check=True).stdout.strip()).parent
    with tempfile.TemporaryDirectory() as folder:
        made = pathlib.Path(folder, "safepoint_stack")
        words = [c_compiler(), "-std=gnu11", "-O2", "-Wall", "-Wextra", "-Werror", "-I", CRATE / "include", "-o", made]
        sources = [TESTS / "safepoint_stack.c", *sorted((CRATE / "waits").glob("*.c"))]
        archives = [library, kit / "c" / "liblibc_c.a", "-lpthread"]
        built = subprocess.run([*words, *sources, *archives], capture_output=True, text=True, timeout=SECONDS)
        if not tally.judge(f"{name}: the program is built", built.stderr if built.returncode else ()):
            return
        ran = subprocess.run([made, str(CALL_BYTES)], capture_output=True, text=True, timeout=SECONDS)
        fault = f"status {ran.returncode}: {ran.stdout}{ran.stderr}" if ran.returncode or ran.stderr else ()
        tally.judge(name, fault, shows=ran.stdout.strip())


def main(words):
    tally = Tally()
    for path in map(pathlib.Path, words):
        kind = path.name.partition(".")[0]
        if path.suffix == ".a":
            calls(tally, path)
        elif kind not in RUNS or not path.is_file():
            tally.judge(str(path), "it is no program that this script runs")
        else:
            faults = list(differing(path.resolve(), RUNS[kind](), STACK_KB))
            tally.judge(f"{path.name} with a main stack of {STACK_KB} KB", faults)
    return tally.end()


def print_least(words):
    for path in map(pathlib.Path, words):
        print(f"{path.name}: {least(path.resolve(), RUNS[path.name.partition('.')[0]]())} KB")


if __name__ == "__main__":
    if len(sys.argv) < 2:
        sys.exit("stacks.py [--least] FILE ..")
    sys.exit(print_least(sys.argv[2:]) if sys.argv[1] == "--least" else main(sys.argv[1:]))
