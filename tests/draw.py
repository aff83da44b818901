#!/usr/bin/env python3
"""Draws a log of calls: draw.py LOG [OUT]

| step | what is done |
|---|---|
| order | `witness` looks for an order of events that explains the log |
| check | `confirm` checks that order, and writes its lines |
| replay | `monitor replay` answers the lines |
| draw | `timeline` draws them into OUT: a page where OUT ends in `.html`, else an SVG file |

OUT is LOG with the ending `.svg` by default. A line on standard error says how long each step took. A program without
a proved build of the present state runs before any proof, and a line says so (first_run.py): then most of its time is
the compiler's. The status is 0 where OUT is drawn. Else OUT stays as it was, and the step that failed says why: status
1 where no order of the log is found, 2 for all other faults.
"""
import os
import pathlib
import subprocess
import sys
import tempfile
import time

TESTS = pathlib.Path(__file__).resolve().parent
WITNESS = TESTS.parent / "witness" / "witness"
BAD_LINES = (b"bad line", b"refused BadSize")


class Fault(Exception):
    """Why nothing is drawn: a text, or none where the step has said it, and the status."""

    def __init__(self, text="", status=2):
        super().__init__(text)
        self.text, self.status = text, status


def program(name, *words):
    """The words that run a program of the repository."""
    return [sys.executable, TESTS / "first_run.py", name, *words]


def ran(words, given, made, status=2):
    """Runs a step from one file into another: how many seconds it took. `status` is for a step that ended with 1."""
    begun = time.monotonic()
    with given.open("rb") as source, made.open("wb") as target:
        ended = subprocess.run(words, stdin=source, stdout=target).returncode
    if ended:
        raise Fault(status=status if ended == 1 else 2)
    return time.monotonic() - begun


def say(step, what, seconds):
    print(f"{step}: {what}, {seconds:.2f} s", file=sys.stderr, flush=True)


def count(path):
    with path.open("rb") as page:
        return sum(1 for _ in page)


def replayed(lines, answers):
    """What the answers to the lines are. Each line has one, and `confirm` writes no line that is none."""
    said = answers.read_bytes().splitlines()
    if len(said) != count(lines) or any(it.startswith(BAD_LINES) for it in said):
        raise Fault("monitor replay doesn't take the lines of confirm")
    refused = sum(it.startswith(b"refused") for it in said)
    return f"{len(said) - 1} events, {refused} of them refused"


def draw(log, out, room):
    """Draws the log into a file of the room, which then is moved to OUT."""
    order, lines, answers, picture = (room / it for it in ("order", "lines", "answers", "picture"))
    seconds = ran([WITNESS, "--order"], log, order, status=1)
    say("order", f"{count(log) - 2} calls", seconds)
    seconds = ran(program("confirm"), order, lines)
    say("check", f"{count(lines) - 1} events explain the log", seconds)
    seconds = ran(program("monitor", "replay"), lines, answers)
    say("replay", replayed(lines, answers), seconds)
    seconds = ran(program("timeline", *(["--html"] if out.suffix == ".html" else [])), lines, picture)
    size = picture.stat().st_size
    os.replace(picture, out)
    say("draw", f"{out}, {size} bytes", seconds)


def main(words):
    if len(words) not in (1, 2) or not all(words):
        raise Fault("LOG [OUT], or make picture LOG=.. [OUT=..]")
    log = pathlib.Path(words[0])
    try:
        log.open("rb").close()
        out = pathlib.Path(words[1]) if words[1:] else log.with_suffix(".svg")
        if out.is_dir() or out.exists() and out.samefile(log):
            raise Fault(f"{out} is the log, or a folder")
        with tempfile.TemporaryDirectory(dir=out.parent, prefix=".drawing_") as room:
            draw(log, out, pathlib.Path(room))
    except OSError as why:
        raise Fault(f"{why.filename2 or why.filename}: {why.strerror}") from why
    return 0


if __name__ == "__main__":
    try:
        sys.exit(main(sys.argv[1:]))
    except Fault as why:
        if why.text:
            print(f"draw: {why.text}", file=sys.stderr)
        sys.exit(why.status)
