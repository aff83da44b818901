#!/usr/bin/env python3
"""Runs the built program that checks orders from outside: confirm.py CONFIRM MONITOR

CONFIRM is run on logs with an order that explains them, on one with an order that doesn't, on changes of them, on texts
that are no log or no order, with bad words, and with each fault that can be made from outside: what it writes on
standard output and on standard error, and its status, must be just those that are stated here. MONITOR must take each
line that it writes. The last line is `N passed, N failed, N skipped`; the status is 0 where none failed.
"""
import os
import pathlib
import subprocess
import sys

from outside import SECONDS, Program, closing, with_memory
from tally import Tally

INPUTS = pathlib.Path(__file__).resolve().parent / "confirm"
UNEXPLAINED = b"confirm: the order doesn't explain the log\n"
LOG = "witness 1\nsize 1 1 1\n0 0 1 start : thread 1 0\n"
START = ("start", "begin 0", "end 0", "wake 0", "cross 0")
ORDER = "".join(f"0 {event}\n" for event in START)

# A text that is no log, and what is told of it.
BAD_LOGS = (
    ("", "header"),
    ("witness 2\nsize 1 1 1\n", "header"),
    ("witness 1\nsize 1 1\n", "header"),
    ("witness 1\nsize 1 1 1\n0 0 1 jump 0 : ok\n", "line 3: call"),
    (LOG + "\n", "line 4: stream"),
    (LOG + "0 2 3 edge : go\n", "line 4: arguments"),
    (LOG + "0 2 3 edge 0 : stop\n", "line 4: values"),
    (LOG + "0 2 3 edge 0 : ?\n", "line 4: answer"),
    (LOG + "0 2 3 edge 0 : go \n", "line 4: jobs"),
    ("witness 1\nsize 1 1 1\n0 5 4 start : thread 1 0\n", "tickets of a stream don't rise"),
    (LOG + "0 1 2 edge 0 : go\n", "tickets of a stream don't rise"),
    ("witness 1\nsize 1 1 1\n1024 0 1 start : thread 1 0\n", "tickets of a stream don't rise"),
    ("witness 1 jobs\nsize 1 1 1\n0 0 1 start : thread 1 0 ; 1 1 0 2\n", "tickets of a stream don't rise"),
)

# An order that isn't one, and the number of its first line that is wrong.
BAD_ORDERS = (
    ("0 start", 1),
    ("\n", 1),
    ("start\n", 1),
    ("0\n", 1),
    ("00 start\n", 1),
    ("+0 start\n", 1),
    ("1099511627776 start\n", 1),
    ("0  start\n", 1),
    (" 0 start\n", 1),
    ("0 start \n", 1),
    ("0 start\r\n", 1),
    ("0 Start\n", 1),
    ("0 size 1 1 1\n", 1),
    ("0 ask\n", 1),
    (f"0 ask depth {'1 ' * 600}1\n", 1),
    (ORDER + "order\n", 6),
    (ORDER + "0 edge\n0 jump\n", 6),
)


def parts(name):
    log, _, order = (INPUTS / name).read_text().partition("order\n")
    return log, order


def both(log, order):
    return f"{log}order\n{order}".encode()


def lines_of(log, order):
    """What is written of an order that explains a log."""
    events = [line.partition(" ")[2] for line in order.splitlines()]
    return "".join(f"{line}\n" for line in [log.splitlines()[1], *events]).encode()


def orders(confirm, monitor):
    log, order = parts("served.txt")
    lines = lines_of(log, order)
    confirm.run("an order", [], lines, given=both(log, order))
    ran = subprocess.run([monitor, "replay"], input=lines, capture_output=True, timeout=SECONDS)
    answers = ran.stdout.splitlines()
    taken = [answer for answer in answers if answer != b"bad line" and not answer.startswith(b"refused")]
    confirm.judge("an order, replayed", (len(taken), ran.stderr, ran.returncode), (len(lines.splitlines()), b"", 0))
    confirm.run("a log without calls", [], b"size 1 1 1\n", given=both("witness 1\nsize 1 1 1\n", ""))
    confirm.run("a call that hasn't returned", [], lines_of(LOG, ORDER), given=both(LOG + "0 2 - edge 0 : ?\n", ORDER))


def changed(order):
    """Orders that differ a little from this one."""
    lines = order.splitlines(keepends=True)
    yield "without its first line", lines[1:]
    yield "without its last line", lines[:-1]
    yield "with a line twice", lines + lines[-1:]
    yield "with its first line last", lines[1:] + lines[:1]
    yield "with a line of a call beyond the log", [*lines[:-1], lines[-1].replace("7 ", "8 ", 1)]
    yield "with a line of another call", [*lines[:-1], lines[-1].replace("7 ", "6 ", 1)]
    yield "with another event", [*lines[:-1], "7 close 2\n"]
    yield "with a request opened before it is asked for", [*lines[:5], lines[6], lines[5], *lines[7:]]
    yield "with a question that no call asks", [*lines, "7 count 0\n"]
    yield "without lines", []


def with_jobs(confirm):
    """Logs that list jobs: the order explains each, and none of its changes."""
    for file, changes in (
        ("jobs.txt", (
            ("whose job is of another operation", "; 1 1 0 40", "; 2 1 0 40"),
            ("whose job is of another thread", "; 1 1 0 40", "; 1 2 0 40"),
            ("whose job has another reply", "; 1 1 0 40", "; 1 1 1 40"),
            ("without a job", " ; 1 1 0 40", ""),
            ("whose census has another number", "census 2", "census 3"),
        )),
        ("drives.txt", (
            ("whose jobs are of one another's threads", "; 5 1 0 112 5 2 0 114", "; 5 2 0 112 5 1 0 114"),
            ("with another reply of a thread", "replies 2 0 1 1", "replies 2 0 1 2"),
            ("with a look that answers as another", "live : names 1 2", "live : replies"),
        )),
    ):
        log, order = parts(file)
        confirm.run(f"an order of {file}", [], lines_of(log, order), given=both(log, order))
        for name, old, new in changes:
            confirm.run(f"a log {name}", [], b"", UNEXPLAINED, 1, given=both(log.replace(old, new), order))
    log, order = parts("drives.txt")
    lines = log.replace("witness 1 jobs", "witness 1").splitlines()
    bare = "".join(line.partition(" ;")[0] + "\n" for line in lines)
    confirm.run("the same without jobs", [], lines_of(bare, order), given=both(bare, order))
    lied = bare.replace("replies 2 0 1 1", "replies 2 0 1 2")
    confirm.run("another reply without jobs", [], b"", UNEXPLAINED, 1, given=both(lied, order))


def unexplained(confirm):
    log, order = parts("served.txt")
    for name, lines in changed(order):
        confirm.run(f"an order {name}", [], b"", UNEXPLAINED, 1, given=both(log, "".join(lines)))
    for name, old, new in (
        ("with another answer", "stop 1", "go"),
        ("whose tickets the order goes against", "0 12 13 tonative", "0 16 17 tonative"),
        ("without a place", "size 1 7 4", "size 0 7 4"),
    ):
        confirm.run(f"a log {name}", [], b"", UNEXPLAINED, 1, given=both(log.replace(old, new), order))
    confirm.run("a log that has no order", [], b"", UNEXPLAINED, 1, given=both(*parts("held.txt")))


def bad_texts(confirm):
    for log, fault in BAD_LOGS:
        confirm.run(f"a bad log: {fault}", [], b"", f"confirm: bad log: {fault}\n".encode(), 2, given=both(log, ORDER))
    for order, number in BAD_ORDERS:
        fault = f"confirm: bad order: line {number}\n".encode()
        confirm.run(f"a bad order {order[:20]!r}", [], b"", fault, 2, given=both(LOG, order))
    for text in ("", LOG, LOG + "order", LOG + "order \n", LOG + "orders\n", LOG + "order\r\n" + ORDER):
        fault = b"confirm: bad order: no line `order`\n"
        confirm.run(f"no line `order`: {text[-10:]!r}", [], b"", fault, 2, given=text.encode())
    confirm.run("both bad", [], b"", b"confirm: bad log: header\n", 2, given=both("", "start\n"))


def bad_words(confirm):
    for words in ([""], ["order"], ["--help"], [b"\xff"], ["-", "-"]):
        confirm.run(f"words {words}", words, b"", b"confirm: bad words\n", 2, given=both(LOG, ORDER))


def devices(confirm):
    given = both(LOG, ORDER)
    told = lambda fault: f"confirm: {fault}\n".encode()
    confirm.run("the input closed", [], b"", told("read failed"), 2, stdin=subprocess.DEVNULL, preexec_fn=closing(0))
    confirm.run("the output closed", [], b"", told("write failed"), 2, given=given, preexec_fn=closing(1))
    unsaid = {"given": both(LOG, ""), "preexec_fn": closing(1)}
    confirm.run("the output closed, and nothing to write", [], b"", UNEXPLAINED, 1, **unsaid)
    with open("/dev/full", "wb") as full:
        confirm.run("a full output", [], b"", told("write failed"), 2, given=given, stdout=full)
        confirm.run("full errors", [], b"", b"", 1, given=both(LOG, ""), stderr=full)
    with open("/dev/zero", "rb") as zero:
        confirm.run("an input without an end", [], b"", told("log too long"), 2, stdin=zero)
        confirm.run("little memory", [], b"", told("no memory"), 2, stdin=zero, preexec_fn=with_memory(64 << 20))


def main(words):
    if len(words) != 2:
        sys.exit("confirm.py CONFIRM MONITOR")
    tally = Tally()
    confirm = Program(words[0], tally)
    if confirm.is_there():
        orders(confirm, os.path.abspath(words[1]))
        unexplained(confirm)
        with_jobs(confirm)
        bad_texts(confirm)
        bad_words(confirm)
        devices(confirm)
    return tally.end()


if __name__ == "__main__":
    sys.exit(main(sys.argv[1:]))
