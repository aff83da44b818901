#!/usr/bin/env python3
"""Runs a program of the repository at once: first_run.py PROGRAM WORD ..

Where there is a proved build of the present state, the script runs that build. Else it runs the program before any
proof, by `rt try`, and a line on standard error says so, with the command that proves the program. Standard input and
output are the program's. The status is the program's own, or 1 where the program can't be tried.
"""
import re
import subprocess
import sys

import proved
from toolchain import ROOT, toolchain

# What `rt try` says of itself on standard error.
OF_THE_TRY = re.compile(rb"^(checked: |races: |run=|interpreted: |rt: ).*\n", re.MULTILINE)


def main(name, *words):
    rtlib, _ = toolchain()
    folder = ROOT / "crates" / name
    if proved.is_proved(rtlib, name):
        return subprocess.call([folder / "out" / name, *words])
    print(f"{name}: this build isn't proved: `make build PROGRAMS={name}` proves and builds it",
          file=sys.stderr, flush=True)
    ran = subprocess.run(["rt", "try", "--", *words], cwd=folder, stderr=subprocess.PIPE)
    sys.stderr.buffer.write(OF_THE_TRY.sub(b"", ran.stderr))
    return ran.returncode


if __name__ == "__main__":
    sys.exit(main(*sys.argv[1:]))
