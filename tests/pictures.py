#!/usr/bin/env python3
"""Runs the built program that draws runs from outside: pictures.py TIMELINE ..

Each TIMELINE draws every run of `examples/`. The picture must be XML with one mark for each line, in their order, which
tells the line and the answer that is stored for it, and the kind of the answer; where a picture is stored, it must be
that one. Parts must have the marks of the whole, and the page the picture, and its colours must be told apart in a grey
print and without red or green. Then it is run with each fault that can be made from outside.
The last line is `N passed, N failed, N skipped`; the status is 0 where none failed.
"""
import os
import subprocess
import sys
import xml.etree.ElementTree as xml

from colours import ROWS, colours_of, too_near
from outside import EXAMPLES, SECONDS, Program, closing
from random_pictures import shape
from tally import Tally

SVG = "{http://www.w3.org/2000/svg}"
ONE_LINE = b"size 1 1 1\n"


def shown(line):
    """A line as a mark tells it: its first 1025 bytes, and a question mark for what isn't printable ASCII."""
    return "".join(chr(byte) if 32 <= byte <= 126 else "?" for byte in line[:1025])


def outcome(answer):
    return "bad" if answer == b"bad line" else "refused" if answer.startswith(b"refused ") else "accepted"


def wanted_marks(path):
    """What the marks of a run tell: its lines, each with the stored answer."""
    answers = path.with_suffix(".out").read_bytes().split(b"\n")[:-1]
    lines = path.read_bytes().split(b"\n")
    both = zip(lines if lines[-1] else lines[:-1], answers, strict=True)
    return [wanted_mark(n, line, answer) for n, (line, answer) in enumerate(both, 1)]


def wanted_mark(n, line, answer):
    told = answer.decode()
    return f"line{n}", f"{outcome(answer)} {shape(line.decode('latin-1'), told)}", f"{shown(line)}\n{told}\n"


def marks(picture):
    """What the marks of a picture tell."""
    groups = xml.fromstring(picture).iter(f"{SVG}g")
    return [(it.get("id"), it.get("class"), it.findtext(f"{SVG}title")) for it in groups]


def coloured(program):
    """Each meaning has a colour, which a grey print and those who don't see red or green tell from the others."""
    colours = colours_of(subprocess.run([program.path], input=ONE_LINE, capture_output=True, timeout=SECONDS).stdout)
    names = sorted(name for row in ROWS.values() for name in row)
    program.judge("a colour for each meaning", (sorted(colours), b"", 0), (names, b"", 0))
    program.judge("colours that are too near", (too_near(colours), b"", 0), ([], b"", 0))


def drawn(program, path):
    ran = subprocess.run([program.path], input=path.read_bytes(), capture_output=True, timeout=SECONDS)
    try:
        found = marks(ran.stdout)
    except xml.ParseError as why:
        found = why
    program.judge(f"the marks of {path.name}", (found, ran.stderr, ran.returncode), (wanted_marks(path), b"", 0))
    parted(program, path, ran.stdout)
    stored = path.with_suffix(".svg")
    if stored.exists():
        program.judge(stored.name, (ran.stdout, ran.stderr, ran.returncode), (stored.read_bytes(), b"", 0))


def parted(program, path, whole):
    """Parts have the marks that the whole has there, and a page has the picture."""
    given = path.read_bytes()
    wanted = wanted_marks(path)
    middle = len(wanted) // 2 + 1
    for words, part in (
        (["--from", str(middle)], wanted[middle - 1:]),
        (["--to", str(middle)], wanted[:middle]),
        (["--from", str(middle), "--to", str(middle)], wanted[middle - 1:middle]),
        (["--from", "1000000"], []),
    ):
        ran = subprocess.run([program.path, *words], input=given, capture_output=True, timeout=SECONDS)
        found = marks(ran.stdout), ran.stderr, ran.returncode
        program.judge(f"{' '.join(words)} of {path.name}", found, (part, b"", 0))
    page = subprocess.run([program.path, "--html"], input=given, capture_output=True, timeout=SECONDS)
    program.judge(f"the page of {path.name}", (whole in page.stdout, page.stderr, page.returncode), (True, b"", 0))


def faults(program):
    numbers = [[flag, number] for flag in ("--from", "--to") for number in ("", "0", "01", "+1", "x", "1099511627776")]
    others = [[""], ["replay"], ["--help"], [b"\xff"], ["a", "b"], ["--from"], ["--html", "--html"]]
    ordered = [["--to", "2", "--from", "1"], ["--from", "9", "--to", "2"], ["--html", "--from", "2", "--to", "1"]]
    for words in (*others, *ordered, *numbers):
        program.run(f"words {words}", words, b"", b"timeline: bad words\n", 2, given=ONE_LINE)
    folder = os.open(EXAMPLES, os.O_RDONLY)
    try:
        program.run("a folder as input", [], b"", b"timeline: read failed\n", 1, stdin=folder)
    finally:
        os.close(folder)
    closed = {"stdin": subprocess.DEVNULL, "preexec_fn": closing(0)}
    program.run("the input closed", [], b"", b"timeline: read failed\n", 1, **closed)
    program.run("the output closed", [], b"", b"timeline: write failed\n", 1, given=ONE_LINE, preexec_fn=closing(1))
    with open("/dev/full", "wb") as full:
        program.run("a full output", [], b"", b"timeline: write failed\n", 1, given=ONE_LINE, stdout=full)
        program.run("bad words, full errors", ["a"], b"", b"", 2, stderr=full)


def tested(program):
    for path in sorted(EXAMPLES.glob("*.lines")):
        drawn(program, path)
    coloured(program)
    faults(program)


def main(paths):
    if not paths:
        sys.exit("pictures.py TIMELINE ..")
    tally = Tally()
    for program in (Program(path, tally) for path in paths):
        if program.is_there():
            tested(program)
    return tally.end()


if __name__ == "__main__":
    sys.exit(main(sys.argv[1:]))
