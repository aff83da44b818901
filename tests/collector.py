#!/usr/bin/env python3
"""Builds and runs the garbage-collected runtime of examples/gc: collector.py LIBSAFEPOINT [--long]

It takes half a minute on a quiet machine, with --long some fifteen.

| what | how |
|---|---|
| the program | as C11 without a warning, by gcc and by clang |
| its runs | with 1, 4, 16 and 64 threads: the checksums of the same work are the same, and collections moved objects |
| `--pauses`, `--seconds`, wrong words | each histogram has all collections; the tasks of a time; the status is 2 |
| with -DSP_CHECK | it runs as it does without |
| `--careless` | the status is that of a stale pointer or of a wrong result, and one line says so |
| ThreadSanitizer, AddressSanitizer | no report; of a careless run ThreadSanitizer reports a race |
| the pages that show it | a block that names a file is in that file; the checksums are those that are printed |

With --long each run of the sanitizers takes a minute. What can't run for want of a compiler or of a sanitizer is
skipped by name. The last line is `N passed, N failed, N skipped`; the status is 0 where none failed.
"""
import functools
import pathlib
import re
import subprocess
import sys
import tempfile

from safepoint import CHECK, CRATE, FLAGS, MEMORY, RACES, ROOT, SECONDS, WAITS, Tests
from tally import Tally, c_compiler
from tutorial import BLOCK, Files

FOLDER = ROOT / "examples" / "gc"
PAGES = (ROOT / "docs" / "start" / "EMBEDDING.md", FOLDER / "README.md")
STRICT = ("-std=c11", "-pedantic", "-Wshadow", "-Wconversion")
THREADS = (1, 4, 16, 64)
WORK, SHORT_WORK, TASKS_OF_A_LIFE = 3000, 300, 16
MINUTE, LONGEST = 60, 120
# What a run prints.
SAID = re.compile(
    r"threads (?P<threads>\d+), tasks (?P<tasks>\d+), lives (?P<lives>\d+)\n"
    r"collections (?P<collections>\d+), objects moved (?P<moved>\d+)\n"
    r"weak roots kept (?P<kept>\d+), cleared (?P<cleared>\d+)\n"
    r"caches cleaned by their threads \d+, for held threads \d+, at a lookup \d+\n"
    r"(?P<checksums>checksums of lists \w{16}, trees \w{16}, graphs \w{16})\n"
)
TITLES = ("from the request until all threads are held:", "while all threads are held:")
BUCKET = re.compile(r" +\d+ +(\d+)  #+")
# How it ends where a pointer is stale or a result is wrong.
CAUGHT = (3, 4)
WRONG_WORDS = (
    ("--threads",), ("--threads", "0"), ("--threads", "65"), ("--threads", "4x"), ("--threads", ""), ("--work", "-1"),
    ("--heap", "7"), ("--seconds", "0"), ("more",),
)


class Programs(Tests):
    """The program as it is built with some words, and its runs."""

    def __init__(self, library, is_long, folder):
        super().__init__(library, None, is_long, folder)
        self.checksums = set()

    @functools.cache
    def program(self, compiler, *words):
        """The program, or None."""
        made = self.folder / f"gc{compiler}{''.join(words)}".replace(",", "_").replace("/", "_")
        waits = [self.folder / f"{made.name}-{it.stem}.o" for it in WAITS]
        include = [*FLAGS, *words, "-I", CRATE / "include"]
        for source, to in zip(WAITS, waits):
            subprocess.run([compiler, "-std=gnu11", *include, "-c", source, "-o", to], check=True)
        sources = sorted(FOLDER.glob("*.c"))
        command = [compiler, *STRICT, *include, "-o", made, *sources, *waits, *self.archives, "-lpthread"]
        built = subprocess.run(command, capture_output=True, timeout=SECONDS)
        name = " ".join((f"gc by {compiler}", *words))
        is_built = self.judge(name, built.stderr.decode(errors="replace") if built.returncode else ())
        return made if is_built else None

    def sanitized(self, word, *names):
        """The program with a sanitizer, or None. For want of that the tests of these names are skipped."""
        lack = self.lack_of(word)
        for name in names if lack else ():
            self.skip(name, lack)
        return None if lack else self.program(c_compiler(), word)

    def counts(self, name, program, count, *words):
        """What a run prints, number by number, or None: its threads lived, and objects moved."""
        ran = self.run(program, "--threads", count, *words)
        if not self.judge_run(name, ran):
            return None
        found = SAID.match(ran.stdout.decode())
        said = {key: int(it) if it.isdecimal() else it for key, it in (found.groupdict() if found else {}).items()}
        is_so = said and said["threads"] == count <= said["lives"] and said["collections"] and said["moved"]
        shown = f"{said['collections']} collections, {said['moved']} objects moved" if is_so else None
        return said if self.judge(f"{name}: what it prints", () if is_so else f"{ran.stdout!r}", shown) else None

    def works(self, name, program, count, work):
        """A run of so much work: a thread that did more than one life has was started again, and the checksums are
        those of each other run of the same work.
        """
        said = self.counts(name, program, count, "--work", work)
        if said:
            self.checksums.add((work, said["checksums"]))
            is_same = said["tasks"] == work and len({it for of, it in self.checksums if of == work}) == 1
            self.holds(f"{name}: the checksums", is_same, f"{said['tasks']} tasks, {sorted(self.checksums)}")
            has_restarted = said["lives"] > count or work <= count * TASKS_OF_A_LIFE
            self.holds(f"{name}: threads start and exit", has_restarted, f"{said['lives']} lives")
        return said

    def caught(self, name, program, count):
        """A careless run, which must end with one line that says why."""
        ran = self.run(program, "--careless", "--threads", count, "--seconds", LONGEST)
        said = ran.stderr.decode(errors="replace")
        is_caught = ran.returncode in CAUGHT and not ran.stdout and re.fullmatch(r"(?:gc: .*\n)+", said)
        self.judge(name, () if is_caught else f"status {ran.returncode}, {ran.stdout!r}, {said!r}", said.split("\n")[0])


def plain(tests):
    for compiler in ("gcc", "clang"):
        names = [f"gc by {compiler}, {count} threads" for count in THREADS]
        program = tests.program(compiler) if tests.has(compiler, *names) else None
        for name, count in zip(names, THREADS) if program else ():
            said = tests.works(name, program, count, WORK)
            if said and count >= 16:
                tests.holds(f"{name}: weak roots", said["kept"] and said["cleared"], f"{said}")


def words(tests):
    program = tests.program(c_compiler())
    if program is None:
        return
    ran = tests.run(program, "--pauses", "--threads", 4)
    if tests.judge_run("gc --pauses", ran):
        text = ran.stdout.decode()
        parts = re.split("|".join(map(re.escape, TITLES)), text)
        wanted = int(SAID.match(text)["collections"])
        found = [sum(map(int, BUCKET.findall(it))) for it in parts[1:]]
        tests.holds("gc --pauses: each collection is in both", found == [wanted] * len(TITLES), f"{wanted}, {text!r}")
    said = tests.counts("gc --seconds", program, 4, "--seconds", 2)
    if said and said["tasks"]:
        tests.checksums.add((said["tasks"], said["checksums"]))
        tests.works("gc, the work of --seconds", program, 4, said["tasks"])
    for given in WRONG_WORDS:
        ran = tests.run(program, *given)
        is_refused = ran.returncode == 2 and not ran.stdout and ran.stderr.startswith(b"gc: gc [--threads N]")
        tests.holds(f"gc {' '.join(given)}", is_refused, f"status {ran.returncode}, {ran.stderr!r}")


def checked(tests):
    program = tests.program(c_compiler(), CHECK)
    if program:
        tests.works("gc, checked", program, 8, WORK)


def careless(tests):
    program = tests.program(c_compiler())
    for count in (1, 4, 16) if program else ():
        tests.caught(f"gc --careless, {count} threads", program, count)


def sanitized(tests):
    threads = THREADS if tests.is_long else THREADS[:-1]
    for word in (RACES, MEMORY):
        names = [f"gc, {count} threads {word}" for count in threads]
        program = tests.sanitized(word, *names)
        for name, count in zip(names, threads) if program else ():
            if tests.is_long:
                tests.counts(name, program, count, "--seconds", MINUTE)
            else:
                tests.works(name, program, count, SHORT_WORK)


def seen(tests):
    """ThreadSanitizer sees what the safepoint is for."""
    name = f"gc --careless, seen by {RACES}"
    program = tests.sanitized(RACES, name)
    if program:
        ran = tests.run(program, "--careless", "--threads", 4, "--seconds", LONGEST)
        said = ran.stderr.decode(errors="replace")
        is_seen = ran.returncode and "WARNING: ThreadSanitizer: data race" in said
        tests.holds(name, is_seen, f"status {ran.returncode}, {said!r}")


def shown(tests):
    """The blocks of the pages, and the checksums that the example's own page has."""
    printed = {it for work, it in tests.checksums if work == WORK}
    page = PAGES[-1].read_text()
    tests.holds("the page has the checksums", printed and all(f"    {it}\n" in page for it in printed), f"{printed}")
    for page in PAGES:
        blocks = [it[1:] for it in BLOCK.findall(page.read_text()) if it[1] and (ROOT / it[1]).is_file()]
        tests.holds(f"{page.name} shows code", blocks)
        for name, text in blocks:
            tests.judge(f"{page.name}: {name}: {text.splitlines()[0]}", Files(None).fault_of(name, text))


PARTS = (plain, words, checked, careless, sanitized, seen, shown)


def main(given):
    words = [word for word in given if word != "--long"]
    if len(words) != 1:
        sys.exit("collector.py LIBSAFEPOINT [--long]")
    without = Tally()
    if not without.has(c_compiler(), *(it.__name__ for it in PARTS)):
        return without.end()
    with tempfile.TemporaryDirectory() as folder:
        tests = Programs(pathlib.Path(words[0]).resolve(), "--long" in given, pathlib.Path(folder))
        for part in PARTS:
            part(tests)
        return tests.end()


if __name__ == "__main__":
    sys.exit(main(sys.argv[1:]))
