#!/usr/bin/env python3
"""Builds the static libraries for C over what the gate left: archive.py CRATE ..

`rt ci` checks such a crate and builds nothing of it, and `rt lib` proves all libraries below it once more, since it
doesn't take those that `rt ci` built. Where `rt ci` has just left all of them, the crate alone is proved here, and
compiled over them, with the words by which rt does it; elsewhere `rt lib` does it all. The crates are built beside one
another. A library that was built here of the present state stays as it is.
The last line is `N passed, N failed, N skipped`; the status is 0 where none failed.
"""
import subprocess
import sys
import tempfile

import proved
from tally import Tally
from toolchain import ROOT, is_of_the_gate, toolchain


def command_of(rtlib, kit, crate):
    """What builds a crate's library, in the crate's folder."""
    if not all(map(is_of_the_gate, crate.below())):
        return ["rt", "lib"]
    words = crate.words(["--jobs", "1"], keeps=False)
    compiles = ["--toolchain", f"{kit}/toolchain", "--backend", "llvm", "-o", f"out/lib{crate.name}.a"]
    return [rtlib.RATTLE, "build", *words, *compiles]


def begun(rtlib, kit, name):
    """A build that runs, and where it says what it does."""
    folder = ROOT / "crates" / name
    crate = rtlib.Crate(str(folder), str(ROOT), {})
    (folder / "out").mkdir(exist_ok=True)
    log = tempfile.TemporaryFile("w+", errors="replace")
    how = {"cwd": folder, "stdin": subprocess.DEVNULL, "stdout": log, "stderr": subprocess.STDOUT}
    return subprocess.Popen(command_of(rtlib, kit, crate), **how), log


def ended(tally, rtlib, name, running, log):
    """Counts the build, and notes that the library is proved. Where the build failed, all that it said is shown."""
    status = running.wait()
    log.seek(0)
    said = log.read()
    if status == 0:
        proved.note(rtlib, name)
    else:
        print(said)
    fault = f"status {status}: {''.join(said.strip().splitlines()[-1:])}"
    tally.judge(f"lib{name}.a is built", fault if status else (), "proved")


def main(names):
    tally = Tally()
    rtlib, kit = toolchain()
    stand = [it for it in names if proved.is_proved(rtlib, it)]
    for name in stand:
        tally.judge(f"lib{name}.a is built", shows="of the present state")
    running = {it: begun(rtlib, kit, it) for it in names if it not in stand}
    for name, it in running.items():
        ended(tally, rtlib, name, *it)
    return tally.end()


if __name__ == "__main__":
    sys.exit(main(sys.argv[1:]))
