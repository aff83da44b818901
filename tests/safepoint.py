#!/usr/bin/env python3
"""Builds and runs what C does with the library of safe points: safepoint.py LIBSAFEPOINT [--long] [LIBMODEL]

LIBMODEL is crates/model/out/libmodel.a by default. It takes a minute on a quiet machine, with --long some ten.

| what | how |
|---|---|
| `safepoint_calls.c`: each call with its refusals | as it is; under valgrind; with each growth of memory refused |
| `safepoint_beside.c`: random schedules beside the model | as it is; under AddressSanitizer; growths refused in turn |
| `safepoint_threads.c`: threads at random beside a coordinator | futex, pthread condition, and two sanitizers |
| `safepoint_threads.c` with -DSP_RECORD: whole logs of calls | with the futex and with the pthread condition |
| `safepoint_soak.c`: threads start, ask and exit at random | futex, pthread condition, and two sanitizers |
| `safepoint_late.c`: waits with an end, and who is late | as the soak, and with -DSP_CHECK |
| `safepoint_dead.c`: threads that died, and are taken over | the same |
| `safepoint_stats.c`: what is counted, and the lines of a log | the same |
| the programs in C of docs/start/EMBEDDING.md | they print what the page says |
| `safepoint_misuse.c` with -DSP_CHECK: each call that a host mustn't make | it dies, with its line |
| `safepoint_calls.c`, `safepoint_threads.c` and the scopes of C++ with -DSP_CHECK | they run as they do without |
| `examples/jit` unmaps codes under its threads | with 1, 4 and 16 threads; with --careless it dies of SIGSEGV |
| `safepoint_scopes.cpp`: threads by scopes, exceptions, refused starts | C++17; as C++14 to C++23 without a warning |
| `bindings/rust` | its tests and examples; its documentation without a warning; clippy |

The sanitizers are ThreadSanitizer and AddressSanitizer, of the C side alone.

What can't run for want of a tool, or of a sanitizer, is skipped by name. The last line is `N passed, N failed,
N skipped`; the status is 0 where none failed.
"""
import functools
import os
import pathlib
import re
import signal
import subprocess
import sys
import tempfile

import refusing
from installed import FIRST_STOP, THREAD_DUMP, block
from tally import Tally, c_compiler, cpp_compiler
from toolchain import allocator

TESTS = pathlib.Path(__file__).resolve().parent
ROOT = TESTS.parent
CRATE = ROOT / "crates" / "safepoint"
WAITS = sorted((CRATE / "waits").glob("*.c"))
JIT = ROOT / "examples" / "jit" / "jit.c"
BINDINGS = ROOT / "bindings"
SECONDS = 600
FLAGS = ("-O2", "-g", "-Wall", "-Wextra", "-Werror")
CHECK = "-DSP_CHECK"
CONDITION, RACES, MEMORY = "-DSP_PTHREAD", "-fsanitize=thread", "-fsanitize=address,undefined"
VALGRIND = ("valgrind", "-q", "--leak-check=full", "--error-exitcode=9")
# What takes memory, and so is refused it.
GROWING = set("sp_make sp_fork sp_start sp_target sp_submit sp_census sp_install sp_reclaim_begin".split())
GROWING |= {"sp_reply", "sp_operate", "sp_advance", "sp_drive"}
# The programs in C of docs/start/EMBEDDING.md, and what they print.
PROGRAMS = {"first_stop.c": FIRST_STOP, "thread_dump.c": THREAD_DUMP}
# Threads, requests and the seed of each run of safepoint_threads.
RUNS = ((1, 4000, 1), (4, 1000, 3), (16, 200, 5), (64, 20, 6))
SLOW_RUNS = ((4, 200, 7), (16, 40, 8))
# The same of runs that are recorded.
RECORDED_RUNS = ((2, 60, 9), (3, 60, 10), (4, 40, 11), (8, 20, 12))
# What a checked host says of each misuse: the call, and why.
MISUSES = {
    "two_threads": ("sp_back_edge", r"thread \d+ is in sp_stop with it"),
    "own_callback": ("sp_back_edge", "it is made in a callback for the thread of the party"),
    "callback_for_held": ("sp_back_edge", "it is made in a callback for the thread of the party"),
    "waiting_callback": ("sp_drive", "it waits, and is made in a callback"),
    "signal_handler": ("sp_census",
                       "the thread is in sp_drive with it, and a signal handler or a jump came in between"),
    "copy": ("sp_census", r"it is a copy of the party 0x[0-9a-f]+"),
    "copy_of_freed": ("sp_census", f"it is a copy of a party that was freed, or no call with {CHECK} made it"),
    "forked_child": ("sp_drive", r"process \d+ made its system, and this is process \d+"),
    "joined_in_child": ("sp_census", r"process \d+ made its system, and this is process \d+"),
    "copied_system": ("sp_system_join", r"it is a copy of the party 0x[0-9a-f]+"),
}
# ThreadSanitizer doesn't see the library's locks: its blocks go from thread to thread under them. Its functions alone
# have `::` in their names.
KNOWN = "race:rattle_alloc\nrace:rattle_realloc\nrace:rattle_dealloc\nrace:*::*\n"


class Tests(Tally):
    def __init__(self, library, model, is_long, folder):
        super().__init__()
        self.archives, self.model, self.is_long, self.folder = [library, allocator()], model, is_long, folder
        (folder / "known").write_text(KNOWN)
        self.refuse = refusing.built_in(folder)

    def judge_run(self, what, ran, wanted=None, shows=False):
        """Passed where the status is 0, nothing went to standard error, and what was printed is as wanted, if given."""
        is_right = ran.returncode == 0 and not ran.stderr and wanted in (None, ran.stdout)
        fault = () if is_right else f"status {ran.returncode}, {ran.stdout!r}, {ran.stderr!r}"
        return self.judge(what, fault, ran.stdout.decode(errors="replace").strip() if shows else None)

    def holds(self, what, is_so, fault="it isn't so"):
        return self.judge(what, () if is_so else fault)

    @functools.cache
    def lack_of(self, sanitizer):
        """Why no program can be built or run here with this sanitizer; nothing where one can."""
        source, program = self.folder / "nothing.c", self.folder / "nothing"
        source.write_text("int main(void) { return 0; }\n")
        for command in ([c_compiler(), sanitizer, "-o", program, source, "-lpthread"], [program]):
            ran = subprocess.run(command, capture_output=True, timeout=SECONDS)
            if ran.returncode:
                said = ran.stderr.decode(errors="replace").strip().splitlines()
                return f"no program runs with {sanitizer}: {said[-1][:200] if said else ran.returncode}"
        return None

    def built(self, source, *words, names=(), archives=()):
        """The program of a source in C, or None. For want of a sanitizer the tests of these names are skipped."""
        lacks = [lack for lack in map(self.lack_of, {RACES, MEMORY} & {*words}) if lack]
        for name in names if lacks else ():
            self.skip(name, lacks[0])
        if lacks:
            return None
        program = self.folder / f"{source.stem}{''.join(words)}".replace(",", "_")
        command = [c_compiler(), "-std=gnu11", *FLAGS, "-I", CRATE / "include", *words, "-o", program]
        libraries = [*archives, *self.archives, "-lpthread"]
        made = subprocess.run([*command, source, *WAITS, *libraries], capture_output=True, timeout=SECONDS)
        if made.returncode == 0:
            return program
        self.judge(f"{' '.join((source.name, *words))} is built", made.stderr.decode(errors="replace"))
        return None

    def run(self, program, *words, under=(), env=None):
        env = {**(env or os.environ), "TSAN_OPTIONS": f"suppressions={self.folder / 'known'}"}
        return subprocess.run([*under, program, *map(str, words)], capture_output=True, timeout=SECONDS, env=env)

    def refused(self, program, *words, step=1):
        """What the program prints with one growth refused, for each of them, or for one of so many."""
        growths = refusing.growths_of(self.refuse, [str(program), *map(str, words)], self.folder)
        for growth in range(1, growths + 1, step):
            yield growth, self.run(program, *words, env=refusing.asking(self.refuse, "REFUSE_GROWTH", growth))


def calls(tests):
    program = tests.built(TESTS / "safepoint_calls.c")
    if program is None:
        return
    tests.judge_run("each call", tests.run(program), b"ok\n")
    if tests.has("valgrind", "each call, under valgrind"):
        tests.judge_run("each call, under valgrind", tests.run(program, under=VALGRIND), b"ok\n")
    met = set()
    for growth, ran in tests.refused(program):
        name = ran.stdout.decode().removeprefix("ok, and ").removesuffix(" was refused\n")
        met.add(name)
        if ran.returncode or ran.stderr or name not in {"ok\n", *GROWING}:
            tests.judge_run(f"each call, growth {growth} refused", ran, b"ok\n")
            return
    unmet = " ".join(sorted(GROWING - met))
    tests.holds("each call, each growth refused in turn", not unmet, f"never refused memory: {unmet}")


BESIDE, CHECKED, REFUSED = (f"beside the model{it}" for it in ("", ", with AddressSanitizer", ", with growths refused"))


def beside(tests):
    """Random schedules beside the model."""
    source = TESTS / "safepoint_beside.c"
    if not tests.model.is_file():
        for name in (BESIDE, CHECKED, REFUSED):
            tests.skip(name, f"there is no {tests.model}")
        return
    program = tests.built(source, archives=[tests.model])
    if program is None:
        return
    tests.judge_run(BESIDE, tests.run(program, 20000 if tests.is_long else 400, 1, 1000), shows=True)
    checked = tests.built(source, MEMORY, names=[CHECKED], archives=[tests.model])
    if checked:
        tests.judge_run(CHECKED, tests.run(checked, 400 if tests.is_long else 40, 50_000, 1000))
    whole, step = tests.run(program, 3, 7, 300).stdout, 1 if tests.is_long else 31
    runs = list(tests.refused(program, 3, 7, 300, step=step))
    others = (it for it in runs if (it[1].returncode, it[1].stdout, it[1].stderr) != (0, whole, b""))
    bad = [f"growth {growth}: status {ran.returncode}, {ran.stdout!r}, {ran.stderr!r}" for growth, ran in others]
    tests.judge(REFUSED, bad[:1] if runs else "it takes no memory")


def threads(tests):
    source, factor = TESTS / "safepoint_threads.c", 10 if tests.is_long else 1
    for words, runs in (((), RUNS), ((CONDITION,), RUNS[:3]), ((RACES,), SLOW_RUNS), ((MEMORY,), SLOW_RUNS)):
        runs = [(count, factor * requests, seed) for count, requests, seed in runs]
        names = [" ".join(("{} threads, {} requests, seed {}".format(*run), *words)) for run in runs]
        program = tests.built(source, *words, names=names)
        for name, run in zip(names, runs) if program else ():
            tests.judge_run(name, tests.run(program, *run), shows=True)


def misuses(tests):
    """Each call that a host mustn't make dies in a checked host, and says so in one line."""
    program = tests.built(TESTS / "safepoint_misuse.c", CHECK)
    for name, (call, why) in MISUSES.items() if program else ():
        ran = tests.run(program, name)
        party = ran.stdout.decode().strip()
        line = rf"safepoint: {call} with party {party} in thread \d+: {why}\n"
        has_died = ran.returncode == -signal.SIGABRT and party and re.fullmatch(line, ran.stderr.decode())
        tests.holds(f"a misuse: {name}", has_died, f"status {ran.returncode}, {party}, {ran.stderr!r}")


def checked(tests):
    """What keeps the contract runs under the checks as it does without."""
    calls = tests.built(TESTS / "safepoint_calls.c", CHECK)
    if calls:
        tests.judge_run("each call, checked", tests.run(calls), b"ok\n")
    program = tests.built(TESTS / "safepoint_threads.c", CHECK)
    for count, requests, seed in RUNS if program else ():
        name = f"{count} threads, {requests} requests, seed {seed}, checked"
        tests.judge_run(name, tests.run(program, count, requests, seed), shows=True)


def soak(tests):
    source, factor = TESTS / "safepoint_soak.c", 30 if tests.is_long else 1
    for words, count, seconds in (((), 16, 4), ((CONDITION,), 8, 2), ((RACES,), 8, 2), ((MEMORY,), 16, 2)):
        name = " ".join(("a soak of", str(factor * seconds), "s", *words))
        program = tests.built(source, *words, names=[name])
        if program:
            tests.judge_run(name, tests.run(program, count, factor * seconds, count), shows=True)


ALONE = {"safepoint_late.c": "waits with an end", "safepoint_dead.c": "threads that died",
         "safepoint_stats.c": "what is counted"}


def alone(tests):
    """Programs that take no words."""
    for source, what in ALONE.items():
        for words in ((), (CONDITION,), (RACES,), (MEMORY,), (CHECK,)):
            name = " ".join((what, *words))
            program = tests.built(TESTS / source, *words, names=[name])
            if program:
                tests.judge_run(name, tests.run(program), b"ok\n")


def page(tests):
    """Each program in C of the page prints what it says there."""
    for name, says in PROGRAMS.items():
        source = tests.folder / name
        source.write_text(block(f"c {name}"))
        program = tests.built(source, "-Wno-unused-parameter")
        if program:
            tests.judge_run(f"{name} of the page", tests.run(program), says)


def is_whole(log, count):
    """The log is of this form, each stream's tickets rise, each thread started and exited, and none is closed twice."""
    lines = log.decode().splitlines()
    last, called = {}, []
    for line in lines[2:]:
        stream, before, after, call = line.split()[:4]
        if int(before) <= last.get(stream, 0) or after != "-" and int(after) <= int(before):
            return False
        last[stream] = int(after) if after != "-" else 1 << 40
        called.append((call, line.partition(" : ")[2]))
    said_of = {"close": ("closed",), "drive": ("handshake", "census")}
    answers = [said.split() for call, said in called if call in said_of and said.startswith(said_of[call])]
    closed = [int(said[1]) for said in answers]
    starts, exits = (sum(call == what for call, _ in called) for what in ("start", "exit"))
    is_headed = lines[0] == "witness 1 jobs" and lines[1].startswith("size ")
    return is_headed and starts == exits == count and len(closed) == len(set(closed)) > 0


def recorded(tests):
    """Logs of calls: each is whole."""
    for words in (("-DSP_RECORD",), ("-DSP_RECORD", CONDITION)):
        program = tests.built(TESTS / "safepoint_threads.c", *words)
        for count, requests, seed in RECORDED_RUNS if program else ():
            what = " ".join((f"recorded: {count} threads, {requests} requests, seed {seed}", *words[1:]))
            ran = tests.run(program, count, requests, seed)
            if tests.judge_run(what, ran):
                tests.holds(f"{what}: the log is whole", is_whole(ran.stdout, count))


def jit(tests):
    """The runtime that compiles under its threads: without a fault, and --careless of SIGSEGV."""
    program = tests.built(JIT)
    if program is None:
        return
    for count in (1, 4, 16):
        ran = tests.run(program, count, 60 if tests.is_long else 2)
        if tests.judge_run(f"jit, {count} threads", ran, shows=True) and tests.is_long:
            unmapped = int(ran.stdout.split(b" compilations, ")[1].split()[0])
            tests.holds(f"jit, {count} threads, unmaps 1000 codes", unmapped >= 1000, f"{unmapped}")
    ran = tests.run(program, "--careless", 4, 60)
    has_died = ran.returncode == -signal.SIGSEGV
    tests.holds("jit --careless dies of SIGSEGV", has_died, f"status {ran.returncode}, {ran.stdout!r}, {ran.stderr!r}")


RUST_CALLS = {
    "bindings/rust: tests and examples": ("test",),
    "bindings/rust: documentation": ("doc", "--no-deps"),
    "bindings/rust: clippy": ("clippy", "--all-targets", "--", "-D", "warnings"),
}


def has_clippy():
    return subprocess.run(["cargo", "clippy", "--version"], capture_output=True, timeout=SECONDS).returncode == 0


def rust(tests):
    if not tests.has("cargo", *RUST_CALLS):
        return
    sys.path.insert(0, str(ROOT / "install"))
    from libraries import waits_archive
    archives = [waits_archive(tests.folder), *tests.archives]
    names = {"SAFEPOINT_ARCHIVES": " ".join(map(str, archives)), "RUSTDOCFLAGS": "-D warnings"}
    how = {"capture_output": True, "timeout": SECONDS, "cwd": BINDINGS / "rust", "env": {**os.environ, **names}}
    for name, (call, *words) in RUST_CALLS.items():
        if call == "clippy" and not has_clippy():
            tests.skip(name, "cargo has no clippy")
            continue
        shared = ["--quiet", "--offline", "--target-dir", tests.folder / "target"]
        ran = subprocess.run(["cargo", call, *shared, *words], **how)
        said = [it.decode(errors="replace")[-2000:] for it in (ran.stdout, ran.stderr)]
        tests.judge(name, said if ran.returncode else ())


STANDARDS = {f"scopes as {it}, without a warning": it for it in ("c++14", "c++17", "c++20", "c++2b")}


def cpp(tests):
    for name, words in (("scopes of C++", ()), ("scopes of C++, checked", (CHECK,))):
        if tests.has(cpp_compiler(), name):
            scopes(tests, name, *words)
    if tests.has(cpp_compiler(), *STANDARDS):
        standards(tests)


def standards(tests):
    command = [cpp_compiler(), *FLAGS, "-I", CRATE / "include", "-pedantic", "-fsyntax-only"]
    for name, standard in STANDARDS.items():
        words = [*command, f"-std={standard}", TESTS / "safepoint_scopes.cpp"]
        made = subprocess.run(words, capture_output=True, timeout=SECONDS)
        tests.judge(name, made.stderr.decode(errors="replace") if made.returncode else ())


def scopes(tests, name, *words):
    objects = [tests.folder / f"{source.stem}.o" for source in WAITS]
    for source, made in zip(WAITS, objects):
        command = [c_compiler(), "-std=gnu11", *FLAGS, "-I", CRATE / "include"]
        subprocess.run([*command, "-c", source, "-o", made], check=True)
    program = tests.folder / "scopes"
    sources = [TESTS / "safepoint_scopes.cpp", *objects, *tests.archives]
    command = [cpp_compiler(), "-std=c++17", *FLAGS, *words, "-I", CRATE / "include", "-o", program]
    subprocess.run([*command, *sources, "-lpthread"], check=True)
    tests.judge_run(name, tests.run(program), b"ok\n")


PARTS = {
    "each call": calls,
    "schedules beside the model": beside,
    "threads at random": threads,
    "waits with an end, and what is counted": alone,
    "the programs of the page": page,
    "logs of calls": recorded,
    "a soak": soak,
    "misuses": misuses,
    "what is checked": checked,
    "jit": jit,
    "scopes of C++": cpp,
    "bindings/rust": rust,
}


def main(given):
    words = [word for word in given if word != "--long"]
    if not 1 <= len(words) <= 2:
        sys.exit("safepoint.py LIBSAFEPOINT [--long] [LIBMODEL]")
    library, model = (pathlib.Path(it).resolve() for it in [*words, ROOT / "crates/model/out/libmodel.a"][:2])
    without = Tally()
    if not without.has(c_compiler(), *PARTS):
        return without.end()
    with tempfile.TemporaryDirectory() as folder:
        tests = Tests(library, model, "--long" in given, pathlib.Path(folder))
        for part in PARTS.values():
            part(tests)
        return tests.end()


if __name__ == "__main__":
    sys.exit(main(sys.argv[1:]))
