#!/usr/bin/env python3
"""Runs draw.py on logs of calls: drawn.py

A log that has an order is drawn as an SVG file and as a page, as `timeline` draws it by itself, and each step says its
time. That is skipped where a program isn't built and proved. A log without an order, a text that is no log, a file that
isn't there and bad words are faults: each has its status and its text, and nothing is drawn.
The last line is `N passed, N failed, N skipped`; the status is 0 where none failed.
"""
import pathlib
import re
import shutil
import subprocess
import sys
import tempfile

import proved
from tally import Tally
from toolchain import ROOT, toolchain

TESTS = ROOT / "tests"
LOGS = TESTS / "calls"
DRAW, WITNESS = TESTS / "draw.py", ROOT / "witness" / "witness"
PROGRAMS = "confirm", "monitor", "timeline"
STEPS = (
    r"order: 32 calls, {time}\ncheck: 123 events explain the log, {time}\n"
    r"replay: 123 events, 3 of them refused, {time}\ndraw: {out}, \d+ bytes, {time}\n"
)
NO_ORDER, BAD_LOG = "witness: no order: all was tried\n", "witness: bad log: header\n"
WORDS = "draw: LOG [OUT], or make picture LOG=.. [OUT=..]\n"


def run(*words, **how):
    return subprocess.run(words, capture_output=True, timeout=600, **how)


def built(name):
    return ROOT / "crates" / name / "out" / name


def drawn_alone(log, *words):
    """What `timeline` draws of a log by itself."""
    order = run(WITNESS, "--order", input=log.read_bytes()).stdout
    return run(built("timeline"), *words, input=run(built("confirm"), input=order).stdout).stdout


def faults_of_drawing(log, out, words, *options):
    """What is wrong with a picture of a log that has an order."""
    ran = run(DRAW, log, *words, text=True)
    form = STEPS.format(time=r"\d+\.\d\d s", out=re.escape(str(out)))
    if ran.returncode or ran.stdout or not re.fullmatch(form, ran.stderr):
        return [f"status {ran.returncode}, {ran.stdout!r}, {ran.stderr!r}"]
    return [] if out.read_bytes() == drawn_alone(log, *options) else [f"{out} isn't what timeline draws"]


def drawings(tally, folder):
    rtlib, _ = toolchain()
    lacking = [it for it in PROGRAMS if not proved.is_proved(rtlib, it)]
    names = "a log is drawn beside it", "a log is drawn as a page"
    if lacking:
        for name in names:
            tally.skip(name, f"not built of the present state: {' '.join(lacking)}")
        return
    log = folder / "run.calls"
    shutil.copyfile(LOGS / "drives.log", log)
    tally.judge(names[0], faults_of_drawing(log, folder / "run.svg", []))
    page = folder / "page.html"
    page.write_text("an older page")
    tally.judge(names[1], faults_of_drawing(log, page, [page], "--html"))
    left = sorted(it.name for it in folder.iterdir())
    tally.judge("no other file is left", [] if left == ["page.html", "run.calls", "run.svg"] else f"{left}")


def faults(tally, folder):
    (other := folder / "other.calls").write_text("no log\n")
    out = folder / "out.svg"
    rows = (
        ("a log without an order", 1, NO_ORDER, [LOGS / "no_order_hold.log", out]),
        ("a text that is no log", 2, BAD_LOG, [other, out]),
        ("a log that isn't there", 2, f"draw: {folder}/none: No such file or directory\n", [folder / "none", out]),
        ("a folder as a log", 2, f"draw: {folder}: Is a directory\n", [folder]),
        ("a folder as the picture", 2, f"draw: {folder} is the log, or a folder\n", [other, folder]),
        ("the log as the picture", 2, f"draw: {other} is the log, or a folder\n", [other, other]),
        ("a picture in no folder", 2, f"draw: {folder}/none/", [other, folder / "none" / "out.svg"]),
        ("no words", 2, WORDS, []),
        ("an empty word", 2, WORDS, [""]),
        ("three words", 2, WORDS, [other, out, out]),
    )
    for name, status, said, words in rows:
        ran = run(DRAW, *words, text=True)
        is_told = ran.returncode == status and ran.stderr.startswith(said) and not ran.stdout
        left = sorted(it.name for it in folder.iterdir())
        is_told = is_told and left == ["other.calls"] and other.read_text() == "no log\n"
        tally.judge(name, [] if is_told else f"status {ran.returncode}, {ran.stdout!r}, {ran.stderr!r}, {left}")


def main():
    tally = Tally()
    for part in (drawings, faults):
        with tempfile.TemporaryDirectory() as folder:
            part(tally, pathlib.Path(folder))
    return tally.end()


if __name__ == "__main__":
    sys.exit(main())
