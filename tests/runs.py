#!/usr/bin/env python3
"""Runs scripts on threads again and again: runs.py PROGRAM [TIMES]

A loop of calls runs on 1, 2, 3 and 64 threads, and a script of 256 methods on 4, each TIMES times (100 where no number
is given). A run must print the same each time. That some frame is compiled doesn't depend on the schedule: the first
mark of each thread calls method 0. The thread makes it before the threads run and while that method's code is in use.
The last line is `N passed, N failed, N skipped`; the status is 0 where none failed.
"""
import pathlib
import subprocess
import sys
import tempfile

from tally import Tally

LOOP = pathlib.Path(__file__).resolve().parent.parent / "examples" / "loop.json"
METHODS = 256
SECONDS = 120


def chain(methods):
    """A script whose methods each call the next one, and the last one goes native and waits."""
    calls = [f'[{{"call":{method + 1}}}]' for method in range(methods - 1)]
    return '{"methods":[' + ",".join([*calls, '["native","block"]']) + "]}"


def wanted(threads, ending, codes):
    """What a run prints."""
    lines = [f"threads {threads}", *(f"thread {name} {ending}" for name in range(1, threads + 1))]
    return "\n".join([*lines, "compiled yes", f"codes {codes} freed {codes}", "counts 0", ""]).encode()


def fault_of(program, script, threads, ending, codes):
    """What is wrong of a run; None where nothing is."""
    command = [program, "run", script, "--threads", str(threads)]
    try:
        ran = subprocess.run(command, capture_output=True, timeout=SECONDS)
    except (OSError, subprocess.TimeoutExpired) as why:
        return str(why)
    is_well = (ran.stdout, ran.stderr, ran.returncode) == (wanted(threads, ending, codes), b"", 0)
    return None if is_well else f"{ran.stdout!r} {ran.stderr!r} {ran.returncode}"


def main():
    if len(sys.argv) not in (2, 3):
        sys.exit("runs.py PROGRAM [TIMES]")
    times = int(sys.argv[2]) if len(sys.argv) == 3 else 100
    tally = Tally()
    with tempfile.NamedTemporaryFile("w", suffix=".json") as many:
        many.write(chain(METHODS))
        many.flush()
        kinds = [("a loop of calls", LOOP, threads, "finished 17", 4) for threads in (1, 2, 3, 64)]
        kinds.append((f"{METHODS} methods", many.name, 4, f"finished {2 * METHODS + 2}", 2 * METHODS))
        for name, script, threads, ending, codes in kinds:
            for time in range(times):
                fault = fault_of(sys.argv[1], script, threads, ending, codes)
                tally.judge(f"{name} on {threads} threads, run {time + 1} of {times}", fault)
    return tally.end()


if __name__ == "__main__":
    sys.exit(main())
