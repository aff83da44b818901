#!/usr/bin/env python3
"""Runs threads hard over what they share, with one seed after the other: soak.py PROGRAM [MINUTES [FIRST]]

PROGRAM is the built program of the crate `test_soak`. Each seed, from FIRST on (1 unless told otherwise), is one run
on 2, 3, 8, 16 or 64 threads by turns; in the runs of even seeds what is closed is forgotten now and then. It stops by
itself after so many minutes (10 unless told otherwise), or at the first run that went wrong, which it names with its
words. A run that hasn't ended after so many seconds has gone wrong too.
The last line is `N passed, N failed, N skipped`; the status is 0 where none failed.
"""
import subprocess
import sys
import time

from tally import Tally

THREADS = (2, 3, 8, 16, 64)
ROUNDS = 200
SECONDS = 300


def ran(words):
    """The status of a run, and all that it printed."""
    try:
        devices = {"stdin": subprocess.DEVNULL, "stdout": subprocess.PIPE, "stderr": subprocess.STDOUT}
        it = subprocess.run(words, timeout=SECONDS, **devices)
    except (OSError, subprocess.TimeoutExpired) as why:
        return None, str(why)
    return it.returncode, it.stdout.decode(errors="replace").rstrip()


def judge(tally, program, threads, seed):
    words = [program, str(threads), str(ROUNDS), str(seed), *(["forget"] if seed % 2 == 0 else [])]
    status, said = ran(words)
    is_right = status == 0 and said.endswith(" ok")
    tally.judge(" ".join(words), () if is_right else f"status {status}: {said}", said)


def main(words):
    if len(words) not in (1, 2, 3):
        sys.exit("soak.py PROGRAM [MINUTES [FIRST]]")
    minutes = float(words[1]) if len(words) > 1 else 10
    seed = int(words[2]) if len(words) > 2 else 1
    end, tally = time.monotonic() + 60 * minutes, Tally()
    while time.monotonic() < end and not tally.failed:
        judge(tally, words[0], THREADS[seed % len(THREADS)], seed)
        seed += 1
    return tally.end()


if __name__ == "__main__":
    sys.exit(main(sys.argv[1:]))
