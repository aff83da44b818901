#!/usr/bin/env python3
"""Polls in line, frames that are left, switches of stacks, and the programs of a page: inline.py LIBSAFEPOINT

| what | how |
|---|---|
| `safepoint_polls.c`: threads that poll in line alone, beside two coordinators | as they are; futex and condition; |
| `safepoint_unwind.c`: threads that leave frames by longjmp, beside a coordinator | two sanitizers; checked and |
| `safepoint_switch.c`: threads of the host that switch between parties | recorded hosts |
| `safepoint_inline.cpp`: the same by scopes | C++17, also checked; as C++14 to C++23 without a warning |
| the further programs of docs/start/EMBEDDING.md | each prints what it must |

What can't run for want of a tool, or of a sanitizer, is skipped by name. The last line is `N passed, N failed,
N skipped`; the status is 0 where none failed.
"""
import pathlib
import subprocess
import sys
import tempfile

from installed import WARNINGS, block
from safepoint import CHECK, CONDITION, CRATE, FLAGS, MEMORY, RACES, ROOT, SECONDS, TESTS, WAITS, Tests
from tally import Tally, c_compiler, cpp_compiler

RECORD = "-DSP_RECORD"
# By source: threads and rounds of a run, and of one under a sanitizer.
SOURCES = {"polls": ((4, 50), (3, 10)), "unwind": ((4, 12), (3, 4)), "switch": ((4, 100), (3, 20))}
WAYS = ((), (CONDITION,), (RACES,), (MEMORY,), (CHECK,), (RECORD,))
SAYS = {
    "inline_poll.c": b"operation 1\nclosed 1\n",
    "exceptions.c": b"landed: 10 frames\nunwound: 0 frames\n",
    "coroutines.c": b"200 callbacks in 100 handshakes\n",
    "exceptions.cpp": b"",
}
STANDARDS = ("c++14", "c++17", "c++20", "c++2b")
SCOPES = "#include <safepoint.hpp>\n\nint main() {\n%s}\n"


def programs(tests):
    for name, (run, slow_run) in SOURCES.items():
        for words in WAYS:
            count, rounds = slow_run if {RACES, MEMORY} & {*words} else run
            what = " ".join((f"{name}, {count} threads, {rounds} rounds", *words))
            program = tests.built(TESTS / f"safepoint_{name}.c", *words, names=[what])
            if program:
                tests.judge_run(what, tests.run(program, count, rounds), b"ok\n")


def objects(tests):
    """The waits, as an install has them."""
    made = [tests.folder / f"{it.stem}.o" for it in WAITS]
    for waits, it in zip(WAITS, made):
        command = [c_compiler(), "-std=gnu11", *WARNINGS, "-I", CRATE / "include", "-c", waits, "-o", it]
        subprocess.run(command, check=True)
    return made


def judge_program(tests, name, source, says, *words, waits=()):
    """Builds a host's program and runs it: it must print what it says."""
    program = tests.folder / f"{name.replace(' ', '_')}.out"
    compiler = c_compiler() if source.suffix == ".c" else cpp_compiler()
    command = [compiler, *WARNINGS, *words, "-I", CRATE / "include", "-o", program, source, *waits, *tests.archives]
    made = subprocess.run([*command, "-lpthread"], capture_output=True, text=True, timeout=SECONDS)
    if tests.judge(f"{name} is built", made.stderr if made.returncode else ()):
        tests.judge_run(name, tests.run(program), says)


def scopes(tests, waits):
    names = ("scopes", f"scopes {CHECK}", *(f"scopes as {it}" for it in STANDARDS))
    if not tests.has(cpp_compiler(), *names):
        return
    source = TESTS / "safepoint_inline.cpp"
    judge_program(tests, names[0], source, b"ok\n", "-std=c++17", waits=waits)
    judge_program(tests, names[1], source, b"ok\n", "-std=c++17", CHECK, waits=waits)
    for it in STANDARDS:
        words = [cpp_compiler(), f"-std={it}", *FLAGS, "-pedantic", "-I", CRATE / "include", "-fsyntax-only", source]
        made = subprocess.run(words, capture_output=True, text=True, timeout=SECONDS)
        tests.judge(f"scopes as {it}, without a warning", made.stderr if made.returncode else ())


def page(tests, waits):
    """The programs of the page, as a host compiles them."""
    for name, says in SAYS.items():
        kind = name.partition(".")[2]
        if kind == "cpp" and not tests.has(cpp_compiler(), name):
            continue
        source, text = tests.folder / name, block(f"{kind} {name}")
        source.write_text(text if kind == "c" else SCOPES % text)
        judge_program(tests, name, source, says, waits=waits)


def main(words):
    if len(words) != 1:
        sys.exit("inline.py LIBSAFEPOINT")
    without = Tally()
    if not without.has(c_compiler(), "programs", "scopes", "the page"):
        return without.end()
    with tempfile.TemporaryDirectory() as name:
        folder, model = pathlib.Path(name), ROOT / "crates/model/out/libmodel.a"
        tests = Tests(pathlib.Path(words[0]).resolve(), model, False, folder)
        programs(tests)
        waits = objects(tests)
        scopes(tests, waits)
        page(tests, waits)
        return tests.end()


if __name__ == "__main__":
    sys.exit(main(sys.argv[1:]))
