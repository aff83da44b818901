#!/usr/bin/env python3
"""Builds and runs small hosts in C that try what a runtime does with its system: hosts.py LIBSAFEPOINT

| program of tests/hosts | what a host does |
|---|---|
| `hosts/attach.c` | threads start while censuses are open |
| `hosts/join.c` | threads join one system at once |
| `hosts/restart.c` | a party is a thread again and again |
| `hosts/ask_all.c` | requests of all threads, while threads start and exit |
| `hosts/reclaim.c` | codes are reclaimed, while threads start and exit |
| `hosts/replies.c` | a client asks for replies while the coordinator works |
| `hosts/fork_child.c` | the process forks |
| `hosts/entries.c` | the history gets full: the page of sp_forget has the number of entries of each call |

All but the last run as they are, with the checks of -DSP_CHECK, with a pthread condition in place of a futex, and under
ThreadSanitizer and AddressSanitizer.
The last line is `N passed, N failed, N skipped`; the status is 0 where none failed.
"""
import pathlib
import re
import sys
import tempfile

from safepoint import CHECK, CONDITION, CRATE, MEMORY, RACES, TESTS, Tests
from tally import Tally, c_compiler

HOSTS = TESTS / "hosts"
# The words of a build, the words of each run as it is, and those of the others.
PROGRAMS = {
    "attach": (("-Wl,--wrap=sp_start",), ((1, 20), (4, 20), (16, 10), (64, 5)), ((4, 10), (64, 2))),
    "join": ((), ((1, 100), (4, 100), (16, 50), (64, 20)), ((4, 20), (64, 5))),
    "restart": ((), ((1, 100), (4, 100), (16, 50), (64, 20)), ((4, 20), (64, 3))),
    "ask_all": ((), ((1, 500), (4, 500), (16, 100)), ((4, 100),)),
    "reclaim": (("-Wl,--wrap=sp_reclaim_begin",), ((1, 200), (4, 200), (16, 50)), ((4, 50),)),
    "replies": ((), ((1000,),), ((100,),)),
    "fork_child": ((), ((40,),), ((5,),)),
}
VARIANTS = ((CHECK,), (CONDITION,), (RACES,), (MEMORY,))
# The entries that fill a history, and the targets of the requests of `hosts/entries.c` of which none lives.
FULL, GONE = 1_000_000, 8
# A line of the header that counts entries: the call, whether each target counts, and a number.
ENTRIES = re.compile(r"^   (sp_\w+)\b.* {2,}(N \+ )?(\d)$", re.MULTILINE)


def hosts(tests):
    for name, (words, runs, others) in PROGRAMS.items():
        for more, its in (((), runs), *((it, others) for it in VARIANTS)):
            names = [" ".join((name, *map(str, run), *more)) for run in its]
            program = tests.built(HOSTS / f"{name}.c", *more, *words, names=names)
            for what, run in zip(names, its) if program else ():
                tests.judge_run(what, tests.run(program, *run), shows=True)


def counted():
    """The entries of each call, as the page of sp_forget says: for each target, and beside."""
    text = (CRATE / "include" / "safepoint.h").read_text().partition("The ENTRIES that")[2].partition("*/")[0]
    return {call: (1 if each else 0, int(beside)) for call, each, beside in ENTRIES.findall(text)}


def wanted(calls, kind, threads):
    """How often a kind of call comes until the history is full, beside so many threads."""
    def of(call, targets):
        each, beside = calls[call]
        return each * targets + beside

    room, request = FULL - threads * of("sp_start", 0), of("sp_submit", threads)
    reclaimed = of("sp_install", 0) + (of("sp_reclaim_begin", threads) if threads else 0)
    return {
        "life": room // of("sp_start", 0),
        "census": room // of("sp_census", 0),
        "handshake": room // request,
        "gone": (room - of("sp_submit", GONE)) // of("sp_submit", 0) + 1,
        "code": (room - of("sp_install", 0)) // reclaimed,
        "invalidated": (room - of("sp_install", 0)) // reclaimed,
    }[kind]


def entries(tests):
    """How often each kind of call comes until the history is full is what the page of sp_forget says."""
    program = tests.built(HOSTS / "entries.c")
    ran = tests.run(program) if program else None
    if ran is None or not tests.judge_run("the history gets full", ran):
        return
    for line in ran.stdout.decode().splitlines():
        kind, threads, times = line.split()
        must = wanted(counted(), kind, int(threads))
        tests.holds(f"entries: {kind}, {threads} threads, {times} times", int(times) == must, f"and not {must} times")


def main(words):
    if len(words) != 1:
        sys.exit("hosts.py LIBSAFEPOINT")
    without = Tally()
    if not without.has(c_compiler(), "hosts in C"):
        return without.end()
    with tempfile.TemporaryDirectory() as folder:
        tests = Tests(pathlib.Path(words[0]).resolve(), None, False, pathlib.Path(folder))
        hosts(tests)
        entries(tests)
        return tests.end()


if __name__ == "__main__":
    sys.exit(main(sys.argv[1:]))
