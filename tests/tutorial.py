#!/usr/bin/env python3
"""Runs the commands of docs/start/TUTORIAL.md, in a copy of the checkout, and compares its programs and README's with
their files: tutorial.py

A fenced block whose first line names a file, as `rust FILE`, is written into that file where the repository has none;
else the file must have those lines, behind those of the page's block before. In a block `console` each line that begins
with `$ ` is a command, and the lines behind it are what it must print on standard output; `..` stands for any lines.
Programs that are built and proved are copied too, so what the tutorial runs of them is at once.
The last line is `N passed, N failed, N skipped`; the status is 0 where none failed.
"""
import os
import pathlib
import re
import shutil
import subprocess
import sys
import tempfile

from tally import Tally

ROOT = pathlib.Path(__file__).resolve().parent.parent
PAGES = (ROOT / "docs" / "start" / "TUTORIAL.md", ROOT / "README.md")
COPIED = ("src", "specs", "proofs", "args", "stdin", "stdout")
BLOCK = re.compile(r"^```(\w+)(?: (\S+))?\n(.*?)^```$", re.MULTILINE | re.DOTALL)


def copy_crate(crate, to):
    for part in COPIED:
        if (crate / part).is_dir():
            shutil.copytree(crate / part, to / part)
        elif (crate / part).is_file():
            to.mkdir(parents=True, exist_ok=True)
            shutil.copy(crate / part, to / part)
    for built in (crate / "out").glob(f"{crate.name}*"):
        if built.is_file():
            (to / "out").mkdir(parents=True, exist_ok=True)
            shutil.copy2(built, to / "out" / built.name)


def copy_to(room):
    for name in ("crates.txt", "HANDLES", "Makefile"):
        shutil.copy(ROOT / name, room / name)
    for name in ("tests", "examples"):
        shutil.copytree(ROOT / name, room / name, ignore=shutil.ignore_patterns("out", "__pycache__", "target"))
    (room / "docs" / "project").mkdir(parents=True)
    for crate in sorted(it for it in (ROOT / "crates").iterdir() if it.is_dir()):
        copy_crate(crate, room / "crates" / crate.name)


class Files:
    """The files that the page's blocks name, in the copy."""

    def __init__(self, room):
        self.room, self.read = room, {}

    def fault_of(self, name, text):
        """What is wrong of a block: the file must have its lines, behind those of the block before.

        One that the repository doesn't have gets them.
        """
        if not (ROOT / name).exists():
            (self.room / name).write_text(text)
            return []
        at = (ROOT / name).read_text().find(text, self.read.get(name, 0))
        self.read[name] = at + len(text)
        return ["it doesn't have these lines of the page:", *text.splitlines()] if at < 0 else []


def commands(text):
    """Each command of a console block, with the lines that it must print."""
    found = []
    for line in text.splitlines():
        if line.startswith("$ "):
            found.append((line[2:], []))
        else:
            found[-1][1].append(line)
    return found


def is_said(wanted, said):
    """Whether these lines were said, where `..` stands for any."""
    if not wanted:
        return not said
    if wanted[0] == "..":
        return any(is_said(wanted[1:], said[at:]) for at in range(len(said) + 1))
    return bool(said) and said[0] == wanted[0] and is_said(wanted[1:], said[1:])


def fault_of(room, command, wanted):
    """What is wrong of a command, which must print just this, with status 0."""
    # (a reader's shell has none of what a make tells those that it runs)
    env = {name: value for name, value in os.environ.items() if name not in ("MAKEFLAGS", "MAKELEVEL", "MFLAGS")}
    how = {"cwd": room, "env": env, "capture_output": True, "text": True, "errors": "replace"}
    ran = subprocess.run(["bash", "-c", command], **how)
    said = ran.stdout.splitlines()
    if ran.returncode == 0 and is_said(wanted, said):
        return []
    return [f"status {ran.returncode}, wanted {wanted}, said {said}", ran.stderr[-2000:]]


def judge(tally, files, kind, name, text):
    """A block's file has its lines, or each command of a block prints what it must."""
    if name:
        tally.judge(name, files.fault_of(name, text))
    elif kind == "console":
        for command, wanted in commands(text):
            tally.judge(command, fault_of(files.room, command, wanted), "ok")


def main():
    tally = Tally()
    with tempfile.TemporaryDirectory() as folder:
        room = pathlib.Path(folder)
        copy_to(room)
        for page in PAGES:
            files = Files(room)
            for block in BLOCK.findall(page.read_text()):
                judge(tally, files, *block)
    return tally.end()


if __name__ == "__main__":
    sys.exit(main())
