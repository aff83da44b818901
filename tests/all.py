#!/usr/bin/env python3
"""All tests: the gate, `rt ci`; then what it can't do: the further wrong bodies, and, from outside, the programs that
it built, the libraries that C links, and what is installed of them.

The last line counts them all: `N passed, N failed, N skipped`. The status is 0 where none failed. Before that line
comes once more why something failed, under `failed:`, and what was not run, under `skipped:` (tests/failures.py). With
STRICT=1 a skip is a failure. Where the gate fails, the run ends with it. With EDITS_MINUTES no further crate's wrong
bodies are begun once so many minutes are over.

out/gate.log has what the gate said, out/parts.log what the others did, out/minutes.log what each of its checks took
(tests/minutes.py makes bench/MINUTES.md of it). Where nothing failed, the state is noted for `make quick`.
"""
import contextlib
import os
import pathlib
import signal
import subprocess
import sys
import tempfile

import proved
import quick
from tally import CLOSING, Tally
from toolchain import ROOT, toolchain

TESTS, OUT, CRATES = (pathlib.Path(name) for name in ("tests", "out", "crates"))
MONITOR, TIMELINE, CONFIRM = (CRATES / it / "out" / it for it in ("monitor", "timeline", "confirm"))
MODEL, SAFEPOINT = CRATES / "model/out/libmodel.a", CRATES / "safepoint/out/libsafepoint.a"
GATE_LOG, PARTS_LOG, MINUTES_LOG = OUT / "gate.log", OUT / "parts.log", OUT / "minutes.log"
# What of a part that doesn't end well is shown again.
LAST_LINES = 5

# A part is a script with its words, and the libraries for C that it needs.
BESIDE_OTHERS = (
    (("program.py", MONITOR, f"{MONITOR}.by-rattle"), ()),
    (("confirm.py", CONFIRM, MONITOR), ()),
    (("pictures.py", TIMELINE, f"{TIMELINE}.by-rattle"), ()),
    (("random_pictures.py", MONITOR, TIMELINE, "20000"), ()),
    (("pages.py", TIMELINE), ()),
    (("links.py",), ()),
    (("codes.py",), ()),
    (("drawn.py",), ()),
    (("version.py",), ()),
    (("tutorial.py",), ()),
    (("stacks.py", MONITOR, TIMELINE, CONFIRM), ()),
    (("hostile.py", "memory", "--built"), ()),
    (("refused.py", MONITOR), ()),
)
# Threads, which have the machine for themselves.
ALONE = (
    (("hostile.py", "threads", "--built"), ()),
    (("runs.py", MONITOR), ()),
    (("embed.py", MODEL), ("model",)),
    (("safepoint.py", SAFEPOINT, MODEL), ("safepoint", "model")),
    (("collector.py", SAFEPOINT), ("safepoint",)),
    (("inline.py", SAFEPOINT), ("safepoint",)),
    (("hosts.py", SAFEPOINT), ("safepoint",)),
    (("stacks.py", SAFEPOINT), ("safepoint",)),
    (("header.py", SAFEPOINT), ("safepoint",)),
    (("watching.py", SAFEPOINT), ("safepoint",)),
    (("install.py",), ("safepoint", "model")),
    (("packages.py",), ("safepoint", "model")),
    (("witness.py", SAFEPOINT, MONITOR, "1"), ("safepoint",)),
)


class Both:
    """Standard output with a log of it: what is printed goes to both at once."""

    def __init__(self, *files):
        self.files = files

    def write(self, text):
        for it in self.files:
            it.write(text)
            it.flush()

    def flush(self):
        """`write` has done it."""


@contextlib.contextmanager
def logged(path):
    with open(path, "w") as log, contextlib.redirect_stdout(Both(sys.stdout, log)):
        yield


@contextlib.contextmanager
def beside(command, log):
    """A command that runs meanwhile, whose standard output and errors go to the log. At the end it is stopped."""
    running = subprocess.Popen(list(map(str, command)), stdin=subprocess.DEVNULL, stdout=log, stderr=subprocess.STDOUT)
    try:
        yield running
    finally:
        running.terminate()
        running.wait()


def shown(command):
    """Runs a command, and prints what it says: its status, and its lines."""
    words = list(map(str, command))
    how = {"stdout": subprocess.PIPE, "stderr": subprocess.STDOUT, "text": True, "errors": "replace"}
    lines = []
    with subprocess.Popen(words, **how) as running:
        try:
            for line in running.stdout:
                print(line, end="")
                lines.append(line)
        except BaseException:
            running.terminate()
            raise
    return running.returncode, lines


def judge_end(tally, name, status, lines):
    """Adds the counts of a command's last line. An end without them, or against them, is one failure."""
    own, closing, fault = Tally(), "".join(lines[-1:]), None
    tally.add(closing)
    if not own.add(closing):
        fault = "it ended without its counts"
    elif not own.passed + own.failed + own.skipped:
        fault = "it counted nothing"
    elif bool(status) != bool(own.failed):
        fault = f"it ended with status {status}"
    if fault:
        tally.judge(name, [f"{fault}; it said last", *lines[-LAST_LINES:]])


def part(tally, words, needs):
    """Runs a script of tests and counts what it counts. Without a library that it needs it is skipped."""
    name = " ".join(map(str, words))
    lacks = [f"lib{it}.a" for it in needs if not proved.is_proved(toolchain()[0], it)]
    if lacks:
        tally.skip(name, f"not built of the present state: {' '.join(lacks)}")
    else:
        judge_end(tally, name, *shown((TESTS / words[0], *words[1:])))


def ended(tally, name, running, log):
    """Waits for what ran beside, prints what it said, and counts what it counts."""
    status = running.wait()
    log.seek(0)
    lines = log.read().splitlines(keepends=True)
    print("".join(lines), end="")
    judge_end(tally, name, status, lines)


def edits_of(is_bare):
    """The command that tries the wrong bodies.

    Those beside the ones of the gate take what time it leaves, of each crate once it is proved. Where something was
    built here before, that comes back when the gate ends; then they wait for the end, and a copy has the libraries.
    """
    if not is_bare:
        return [TESTS / "edits.sh", "--further"]
    minutes = os.environ.get("EDITS_MINUTES")
    return ["nice", "-n", "19", TESTS / "edits.py", "--beside", GATE_LOG, *([minutes] if minutes else [])]


def gate():
    """Whether the gate passed."""
    with logged(GATE_LOG):
        status, lines = shown(["rt", "ci"])
    return status == 0 and bool(lines) and CLOSING.fullmatch(lines[-1].strip()) is not None


def parts(tally, edits, edits_log):
    with tempfile.TemporaryFile("w+", errors="replace") as log:
        with beside([TESTS / "archive.py", "model", "safepoint"], log) as archives:
            for words, needs in BESIDE_OTHERS:
                part(tally, words, needs)
            ended(tally, "archive.py model safepoint", archives, log)
    ended(tally, "edits", edits, edits_log)
    for words, needs in ALONE:
        part(tally, words, needs)


def told_again(*logs):
    sys.stdout.flush()
    subprocess.run([TESTS / "failures.py", *logs], check=True)


def tested(stack):
    """Runs all tests. What runs beside ends with the stack. The status."""
    is_bare = not list(CRATES.glob("*/out/rlib"))
    edits_log = stack.enter_context(tempfile.TemporaryFile("w+", errors="replace"))
    edits = stack.enter_context(beside(edits_of(True), edits_log)) if is_bare else None
    has_passed = gate()
    if not has_passed:
        told_again(GATE_LOG)
        print(*GATE_LOG.read_text(errors="replace").splitlines()[-1:], sep="\n")
        return 1
    subprocess.run([TESTS / "proved.py", "note"], check=True)
    if edits is None:
        edits = stack.enter_context(beside(edits_of(False), edits_log))
    tally = Tally()
    with logged(PARTS_LOG):
        judge_end(tally, "rt ci", 0, GATE_LOG.read_text(errors="replace").splitlines())
        parts(tally, edits, edits_log)
    told_again(PARTS_LOG)
    return tally.end()


def main():
    os.chdir(ROOT)
    os.environ["PYTHONUNBUFFERED"] = "1"
    signal.signal(signal.SIGTERM, lambda *_: sys.exit(1))
    OUT.mkdir(exist_ok=True)
    GATE_LOG.write_text("")
    with contextlib.ExitStack() as stack:
        minutes = stack.enter_context(open(MINUTES_LOG, "w"))
        stack.enter_context(beside([TESTS / "minutes.py", "watch", os.getpid()], minutes))
        state = quick.state()
        status = tested(stack)
        if status == 0:
            quick.note(state)
        return status


if __name__ == "__main__":
    sys.exit(main())
