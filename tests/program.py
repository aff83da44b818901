#!/usr/bin/env python3
"""Runs the built program from outside: program.py PROGRAM ..

Each PROGRAM is run on every example of `examples/`, on bad command lines, and with each fault that can be made from
outside: what it writes on standard output and on standard error, and its status, must be just those that are stated
here. The last line is `N passed, N failed, N skipped`; the status is 0 where none failed.
"""
import os
import pathlib
import select
import subprocess
import sys
import tempfile

from outside import EXAMPLES, SECONDS, Program, closing, with_memory
from tally import Tally

BAD_WORDS = b"monitor: bad words\n"
NOT_READ = b"monitor: file not read\n"
READ_FAILED = b"monitor: read failed\n"
WRITE_FAILED = b"monitor: write failed\n"
NO_MEMORY = b"monitor: no memory\n"
NO_THREAD = b"monitor: no thread\n"

ONE_LINE, ONE_ANSWER = b"size 1 1 1\n", b"ok\n"
RIGHT, RIGHT_ANSWER = b'{"methods":[[],[]]}', b"ok 2\n"
WRONG, WRONG_ANSWER = b'{"methods":[[{"call":1}]]}', b"monitor: BadCall at 0.0\n"


def examples(program):
    stems = {end: sorted(it.stem for it in EXAMPLES.glob(f"*.{end}")) for end in ("lines", "json", "out")}
    is_whole = stems["lines"] != [] and stems["json"] != [] and sorted(stems["lines"] + stems["json"]) == stems["out"]
    program.judge("each example has its answers", (is_whole, b"", 0), (True, b"", 0))
    if not is_whole:
        return
    for path in sorted(EXAMPLES.glob("*.lines")):
        program.run(path.name, ["replay"], path.with_suffix(".out").read_bytes(), given=path.read_bytes())
    for path in sorted(EXAMPLES.glob("*.json")):
        wanted = path.with_suffix(".out").read_bytes()
        is_right = wanted.startswith(b"ok ")
        program.run(path.name, ["check", path], *((wanted, b"", 0) if is_right else (b"", wanted, 1)))
        if not is_right:
            program.run(f"run of {path.name}", ["run", path], b"", wanted, 1)
    for path in sorted(EXAMPLES.glob("*.run")):
        program.run(path.name, ["run", path.with_suffix(".json")], path.read_bytes())


def run_text(threads, ending, codes):
    """What a run says whose threads all end so, and whose codes are all freed."""
    lines = [f"threads {threads}", *(f"thread {name} {ending}" for name in range(1, threads + 1))]
    return "\n".join([*lines, "compiled yes", f"codes {codes} freed {codes}", "counts 0", ""]).encode()


def runs(program):
    for threads in (1, 2, 3, 4, 64):
        words = ["run", EXAMPLES / "loop.json", "--threads", str(threads)]
        program.run(f"a loop on {threads} threads", words, run_text(threads, "finished 17", 4))
    words = ["run", EXAMPLES / "recursion.json", "--threads", "1"]
    program.run("a recursion on one thread", words, run_text(1, "overflow 256", 2))
    with tempfile.NamedTemporaryFile(suffix=".json") as script:
        script.write(b'{"methods":[[{"loop":1000000,"body":[]}]]}')
        script.flush()
        program.run("a run without an end", ["run", script.name, "--threads", "1"], run_text(1, "fuel 1000000", 2))


def bad_words(program, right):
    for words in (
        [],
        [""],
        [b"\xff"],
        ["Replay"],
        ["replay "],
        ["replay", ""],
        ["replay", right],
        ["check"],
        ["check", right, right],
        ["check", b"\xff.json"],
        ["--help"],
        [right],
        ["run"],
        ["run", right, "4"],
        ["run", right, "--threads"],
        ["run", right, "--threads", ""],
        ["run", right, "--threads", "0"],
        ["run", right, "--threads", "65"],
        ["run", right, "--threads", "04"],
        ["run", right, "--threads", "+4"],
        ["run", right, "--threads", "4 "],
        ["run", right, "--threads", "18446744073709551620"],
        ["run", right, "--threads", b"\xff"],
        ["run", right, "--threads", "4", "4"],
        ["run", right, "--Threads", "4"],
        ["run", right, "--threads=4"],
        ["run", "--threads", "4", right],
    ):
        program.run(f"words {words}", words, b"", BAD_WORDS, 2, given=ONE_LINE)


def good_words(program, right):
    for name in (b"\xff", b"", b"replay"):
        program.run(f"check as {name}", ["check", right], RIGHT_ANSWER, name_of_program=name)
        program.run(f"replay as {name}", ["replay"], ONE_ANSWER, given=ONE_LINE, name_of_program=name)


def files(program, folder, right, wrong):
    program.run("a file", ["check", right], RIGHT_ANSWER)
    program.run("a wrong file", ["check", wrong], b"", WRONG_ANSWER, 1)
    program.run("a file missing", ["check", f"{folder}/none.json"], b"", NOT_READ, 1)
    program.run("a file without a name", ["check", ""], b"", NOT_READ, 1)
    program.run("a name that is too long", ["check", f"{folder}/{'a' * 5000}"], b"", NOT_READ, 1)
    program.run("a folder as file", ["check", folder], b"", NOT_READ, 1)
    # this file can be opened, and each read of it fails
    program.run("an unreadable file", ["check", "/proc/self/mem"], b"", NOT_READ, 1)
    program.run("an empty file", ["check", "/dev/null"], b"", b"monitor: NotJson at -\n", 1)
    program.run("a file without an end", ["check", "/dev/zero"], b"", b"monitor: TooLong at -\n", 1)
    program.run("run of a wrong file", ["run", wrong], b"", WRONG_ANSWER, 1)
    program.run("run of a file missing", ["run", f"{folder}/none.json", "--threads", "2"], b"", NOT_READ, 1)
    program.run("run of a folder", ["run", folder], b"", NOT_READ, 1)
    program.run("run of an unreadable file", ["run", "/proc/self/mem"], b"", NOT_READ, 1)
    program.run("run of a file without an end", ["run", "/dev/zero"], b"", b"monitor: TooLong at -\n", 1)
    program.run("run of an empty file", ["run", "/dev/null"], b"", b"monitor: NotJson at -\n", 1)


def two_faults(program, folder, right, wrong):
    """Of two faults the first in the order is told: words, file, script, and then the write."""
    missing = f"{folder}/none.json"
    bad_runs = (["run", missing, "--threads", "0"], ["run", wrong, "--threads", "65"], ["run", missing, "--threads"])
    for words in (*bad_runs, ["check", missing, "4"]):
        program.run(f"bad words of {words[0]}, and no right file", words, b"", BAD_WORDS, 2)
    no_threads = ["run", right, "--threads", "0"]
    program.run("bad words, the output closed", no_threads, b"", BAD_WORDS, 2, preexec_fn=closing(1))
    for form in ("check", "run"):
        for name, file, told in (("a wrong file", wrong, WRONG_ANSWER), ("a file missing", missing, NOT_READ)):
            program.run(f"{form} of {name}, the output closed", [form, file], b"", told, 1, preexec_fn=closing(1))
            with open("/dev/full", "wb") as full:
                program.run(f"{form} of {name}, a full output", [form, file], b"", told, 1, stdout=full)
    closed = {"stdin": subprocess.DEVNULL, "preexec_fn": both_closed}
    program.run("replay, input and output closed", ["replay"], b"", READ_FAILED, 1, **closed)


def both_closed():
    os.close(0)
    os.close(1)


def inputs(program, folder):
    program.run("an empty input", ["replay"])
    program.run("a last line without an end", ["replay"], b"ok\nbad line\n", given=b"size 1 1 1\nsta")
    at = os.open(folder, os.O_RDONLY)
    try:
        program.run("a folder as input", ["replay"], b"", READ_FAILED, 1, stdin=at)
    finally:
        os.close(at)
    program.run("the input closed", ["replay"], b"", READ_FAILED, 1, stdin=subprocess.DEVNULL, preexec_fn=closing(0))


def outputs(program, right, wrong):
    forms = (["replay"], ["check", right], ["run", right])
    with open("/dev/full", "wb") as full:
        for words in forms:
            program.run(f"{words[0]}, a full output", words, b"", WRITE_FAILED, 1, given=ONE_LINE, stdout=full)
        program.run("replay of nothing, a full output", ["replay"], stdout=full)
        program.run("bad words, full errors", [], b"", b"", 2, stderr=full)
        program.run("a wrong file, full errors", ["check", wrong], b"", b"", 1, stderr=full)
    for words in forms:
        closed = {"given": ONE_LINE, "preexec_fn": closing(1)}
        program.run(f"{words[0]}, the output closed", words, b"", WRITE_FAILED, 1, **closed)
        unread(program, words)
    program.run("a wrong file, the errors closed", ["check", wrong], b"", b"", 1, preexec_fn=closing(2))


def unread(program, words):
    """The output is a pipe that nobody reads."""
    out, into = os.pipe()
    os.close(out)
    try:
        name = f"{words[0]}, an output that nobody reads"
        program.run(name, words, b"", WRITE_FAILED, 1, given=ONE_LINE, stdout=into)
    finally:
        os.close(into)


def ending(ran, whole):
    """How a run ended: with all that it is to write, or with whole lines of it and the fault, or otherwise."""
    if (ran.stdout, ran.stderr, ran.returncode) == (whole, b"", 0):
        return "all"
    is_front = whole.startswith(ran.stdout) and ran.stdout[-1:] in (b"", b"\n")
    for fault, errors in (("no memory", NO_MEMORY), ("no thread", NO_THREAD)):
        if is_front and (ran.stderr, ran.returncode) == (errors, 1):
            return fault
    return f"status {ran.returncode}, errors {ran.stderr!r}"


def endings(program, words, given, whole, sizes):
    """How runs end under these limits of memory, from the first under which the program starts."""
    found = set()
    for size in sizes:
        how = {"capture_output": True, "timeout": SECONDS, "preexec_fn": with_memory(size)}
        end = ending(subprocess.run([program.path, *words], input=given, **how), whole)
        if found or end in ("all", "no memory", "no thread"):
            found.add(end)
    return found


def little_memory(program, words, given, whole):
    found = endings(program, words, given, whole, range(1 << 20, 8 << 20, 64 << 10))
    program.judge(f"{words[0]}, little memory", (sorted(found), b"", 0), (["all", "no memory"], b"", 0))


def too_few_threads(program):
    """Memory for the stacks of no, some or all threads. Below that there may be none for what the run makes first."""
    words, whole = ["run", EXAMPLES / "loop.json"], (EXAMPLES / "loop.run").read_bytes()
    found = endings(program, words, b"", whole, range(2 << 20, 64 << 20, 1 << 20)) - {"no memory"}
    program.judge("run, too few threads", (sorted(found), b"", 0), (["all", "no thread"], b"", 0))


def line_by_line(program):
    """Each line is answered before the next one is given."""
    found = []
    pipes = {"stdin": subprocess.PIPE, "stdout": subprocess.PIPE, "stderr": subprocess.PIPE}
    with subprocess.Popen([program.path, "replay"], bufsize=0, **pipes) as running:
        for line in (ONE_LINE, b"start\n", b"stack 0\n"):
            running.stdin.write(line)
            ready, _, _ = select.select([running.stdout], [], [], SECONDS)
            found.append(os.read(running.stdout.fileno(), 100) if ready else b"no answer")
        running.stdin.close()
        rest = running.stdout.read() + running.stderr.read()
        running.wait(SECONDS)
    wanted = [ONE_ANSWER, b"thread 1 place 0\n", b"stack\n"]
    program.judge("line by line", (found, rest, running.returncode), (wanted, b"", 0))


def tested(program):
    with tempfile.TemporaryDirectory() as folder:
        right, wrong = f"{folder}/right.json", f"{folder}/wrong.json"
        pathlib.Path(right).write_bytes(RIGHT)
        pathlib.Path(wrong).write_bytes(WRONG)
        examples(program)
        runs(program)
        bad_words(program, right)
        good_words(program, right)
        files(program, folder, right, wrong)
        two_faults(program, folder, right, wrong)
        inputs(program, folder)
        outputs(program, right, wrong)
        little_memory(program, ["check", right], b"", RIGHT_ANSWER)
        two_starts = b"size 64 1024 256\n" + b"start\n" * 2
        little_memory(program, ["replay"], two_starts, b"ok\nthread 1 place 0\nthread 2 place 1\n")
        too_few_threads(program)
        line_by_line(program)


def main(paths):
    if not paths:
        sys.exit("program.py PROGRAM ..")
    tally = Tally()
    for program in (Program(path, tally) for path in paths):
        if program.is_there():
            tested(program)
    return tally.end()


if __name__ == "__main__":
    sys.exit(main(sys.argv[1:]))
