#!/usr/bin/env python3
"""Proves and builds programs and libraries, and says how far it is: build.py CRATE ..

`rt lib` proves the crates below each crate first, the lowest first. `rt run` builds a program, on the input that the
gate runs it on. A check that an earlier run has made of the present state isn't made again. A line for each step has
the place of the crate among all crates, the number of functions of that crate that are checked, and the minutes that
are left, estimated from bench/MINUTES.md and from the time of the crates before. The status is 0 where all is proved
and built. Else the script shows the log of the crate that failed.
"""
import os
import pathlib
import re
import subprocess
import sys
import tempfile
import time

import proved
from minutes import minutes_of
from toolchain import ROOT, toolchain

SO_FAR = re.compile(r"so far: (\d+) of (\d+) functions checked")
LEAST = 0.2


class Progress:
    """Says how far a build is.

    A crate's minutes are those of a processor. The minutes by the clock follow from them and from the time that the
    crates so far took.
    """

    def __init__(self, crates):
        self.minutes = {it.name: max(LEAST, minutes_of(it.name)) for it in crates}
        self.names, self.begun, self.done = [it.name for it in crates], time.monotonic(), 0.0

    def left(self, name, share):
        """How many minutes are left, by the clock, where this share of the crate is done."""
        all_minutes = sum(self.minutes.values())
        done = self.done + share * self.minutes[name]
        by_clock = (time.monotonic() - self.begun) / 60
        ratio = by_clock / done if done > 1 else 1 / min(4, len(os.sched_getaffinity(0)))
        return (all_minutes - done) * ratio

    def say(self, name, checked=0, functions=0):
        of_crate = f"{checked} of {functions} functions, " if functions else ""
        left = self.left(name, checked / functions if functions else 0)
        print(f"crate {self.names.index(name) + 1} of {len(self.names)}: {name}, "
              f"{of_crate}some {left:.0f} minutes left", flush=True)


def command_of(crate):
    if not crate.is_program:
        return ["rt", "lib"], subprocess.DEVNULL
    folder = pathlib.Path(crate.folder)
    args, given = folder / "args", folder / "stdin"
    words = args.read_text().splitlines() if args.is_file() else []
    return ["rt", "run", "--", *words], given.open("rb") if given.is_file() else subprocess.DEVNULL


def build(rtlib, crate, progress):
    """Proves and builds one crate, and notes that a library for C is proved.

    The output of the build is kept, and shown where the build fails.
    """
    command, given = command_of(crate)
    progress.say(crate.name)
    with tempfile.TemporaryFile("w+", errors="replace") as log:
        how = {"stdin": given, "stdout": subprocess.DEVNULL, "stderr": subprocess.PIPE,
               "text": True, "errors": "replace"}
        if not crate.is_program:
            how["stdout"], how["stderr"] = subprocess.PIPE, subprocess.STDOUT
        running = subprocess.Popen(command, cwd=crate.folder, **how)
        for line in running.stdout if not crate.is_program else running.stderr:
            log.write(line)
            told = SO_FAR.search(line)
            if told:
                progress.say(crate.name, int(told[1]), int(told[2]))
        if running.wait() == 0:
            if crate.is_static:
                proved.note(rtlib, crate.name)
            progress.done += progress.minutes[crate.name]
            return True
        log.seek(0)
        print(log.read(), end="")
        print(f"FAILED: {crate.name} is not proved")
        return False


def main(names):
    rtlib, _ = toolchain()
    known = {}
    crates = []
    for name in names:
        crate = rtlib.Crate(str(ROOT / "crates" / name), str(ROOT), known)
        crates += [it for it in [*sorted(crate.below(), key=lambda it: len(it.below())), crate] if it not in crates]
    progress = Progress(crates)
    return 0 if all(build(rtlib, it, progress) for it in crates) else 1


if __name__ == "__main__":
    sys.exit(main(sys.argv[1:]))
