#!/usr/bin/env python3
"""Says once more why something failed, and what was skipped: failures.py LOG ..

Each test of this repository prints a line that begins with `FAILED: ` for what fails, and indents what more it says of
it; and a line that begins with `skipped: ` for what it doesn't run. `rt ci` has its own lines: for what isn't proved,
for a wrong body that isn't refused, for a test or a program that doesn't run well. Those lines of the logs are printed
in their order, each cut to some length. Of more than a screen the last are left out and counted.
"""
import pathlib
import re
import sys

MOST, WIDTH = 36, 300
# What a line of `rt ci` says where something fails. (`fn` is the path of a function that is not proved, `test` a test's
# own line.)
OF_THE_GATE = re.compile(
    r"rt: FAILED|rt: .*(NOT PROVED|NOT REFUSED|NOT TRIED|BAD EDIT|its tests FAILED|was not run)"
    r"|rt: .*: (the program (ended|was stopped|had not ended)|what the program wrote)"
    r"|(note: )?\S+:\d+:\d+: (error|it is not proved)|fn \S+: (not proved|no proof)|error(\[|:)"
    r"|test .* (FAILED|failed)|panicked at"
    r"|rt: .*(HANDLES|run rt fmt|names what only|renames std|no check reads)"
)


def failures(lines):
    """Those that say why something failed."""
    is_inside = False
    for line in lines:
        is_inside = line.startswith("FAILED: ") or is_inside and line.startswith("  ")
        if is_inside or OF_THE_GATE.match(line):
            yield line


def skips(lines):
    """Those that say what was skipped."""
    return (line for line in lines if line.startswith("skipped: "))


def show(title, lines, logs):
    if lines:
        print(title, *(it if len(it) <= WIDTH else f"{it[:WIDTH]} .." for it in lines[:MOST]), sep="\n")
    if len(lines) > MOST:
        print(f"and {len(lines) - MOST} lines more: {' '.join(logs)}")


def main(logs):
    lines = [line for log in logs for line in pathlib.Path(log).read_text(errors="replace").splitlines()]
    show("failed:", list(failures(lines)), logs)
    show("skipped:", list(skips(lines)), logs)
    return 0


if __name__ == "__main__":
    sys.exit(main(sys.argv[1:]))
