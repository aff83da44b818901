#!/usr/bin/env python3
"""Checks the headers for C and C++, and the table of safepoint.h: header.py LIBSAFEPOINT

Each header is compiled without a warning by each compiler that is there, in each standard that it knows. The table of
safepoint.h says of each call which party may make it, from which states, what it leads to, and which refusals it has.
`safepoint_table.c` makes each call with each kind of party, and each call of a thread from each state. It and
`safepoint_calls.c` meet the refusals. All that is answered must be in the table, and all in the table must be met, but
for what `is_unmet` says. Which calls lack memory is compared with those that tests/safepoint.py refuses it. Then the
table is changed at some places, in memory alone: each change must be found.
The last line is `N passed, N failed, N skipped`; the status is 0 where none failed.
"""
import pathlib
import subprocess
import sys
import tempfile

import call_table
from safepoint import GROWING
from tally import Tally, c_compiler
from toolchain import ROOT, allocator

sys.path.insert(0, str(ROOT / "install"))

from libraries import CRATES, INCLUDE, WAITS, declared

TESTS = ROOT / "tests"
SECONDS = 120
STRICT = ("-Wall", "-Wextra", "-pedantic", "-Werror", "-Wshadow", "-Wconversion", "-fsyntax-only")
DEFINES = ((), ("-DSP_CHECK",), ("-DSP_RECORD",))
HEADERS = ("safepoint.h", "safepoint_wait.h", "model.h")
# Compilers, how a file of the language ends, its standards, and the headers that are for these.
LANGUAGES = (
    (("gcc", "clang"), ".c", ("c99", "c11", "c17", "c2x"), HEADERS),
    (("g++", "clang++"), ".cpp", ("c++14",), HEADERS),
    (("g++", "clang++"), ".cpp", ("c++17", "c++20", "c++2b"), (*HEADERS, "safepoint.hpp")),
)
# Headers that are compiled as they are alone.
PLAIN = ("model.h", "safepoint.hpp")
# A host's own code over the waits.
WAITING = """
int64_t asked(struct sp_party *party);
int64_t asked(struct sp_party *party) {
    int64_t answer;
    SP_WAIT(answer, sp_census(party));
    SP_WAIT(answer, sp_reply(party, (uint64_t)answer, 1));
    return answer;
}
"""
USES = {"safepoint_wait.h": WAITING, "safepoint.hpp": WAITING}
KINDS = ("by", "in", "met")
# A thread is held only for an open operation that it was told, and nothing closes while it is held.
NEVER = {("sp_serve", "NOTHING_OPEN"), ("sp_serve", "NOT_TOLD")}

# Changes of one place, by which the table says another thing than the library.
PLANTS = (
    ("sp_to_vm             thread  Java     VM ", "sp_to_vm             thread  Java     same "),
    ("sp_from_native       thread  native   back ", "sp_from_native       thread  native   Java "),
    ("  back      0\n", "  serving   0\n"),
    ("sp_publish           thread  Java VM ", "sp_publish           thread  Java "),
    ("sp_back_edge         thread  Java ", "sp_back_edge         thread  Java VM "),
    ("sp_exit              thread  Java VM  - ", "sp_exit              thread  Java VM  same "),
    ("0, polls          EMPTY_STACK", "0                 EMPTY_STACK"),
    ("sp_open_kind         any ", "sp_open_kind         coord."),
    ("sp_tell              coord.", "sp_tell              any   "),
    ("NOTHING_OPEN NOT_OF NOT_TOLD\n", "NOTHING_OPEN NOT_TOLD\n"),
    ("AGAIN NOT_WEIGHED LATE", "AGAIN LATE"),
    ("AGAIN UNKNOWN NOT_IN_USE", "AGAIN UNKNOWN NOT_IN_USE TABLE_FULL"),
)


def is_unmet(call, refusal):
    """Refusals that no run meets: a lock that another thread has, 2^40 numbers, and what can't come."""
    return refusal in ("AGAIN", "SPENT", "NO_MEMORY") or (call, refusal) in NEVER


def said(*words):
    return subprocess.run(list(map(str, words)), capture_output=True, text=True, timeout=SECONDS)


def compiles(tally, folder, compiler, end, standard, headers):
    """Each header alone, in one standard."""
    source = folder / f"one{end}"
    source.write_text("int one;\n")
    name = f"the headers in {standard} of {compiler}"
    if not tally.has(compiler, name):
        return
    known = said(compiler, f"-std={standard}", "-fsyntax-only", source)
    if known.returncode:
        tally.skip(name, f"{compiler} doesn't know it")
        return
    faults = []
    for header in headers:
        source.write_text(f"#include <{header}>\n{USES.get(header, '')}")
        for defines in DEFINES[:1] if header in PLAIN else DEFINES:
            places = ("-I", INCLUDE, "-I", CRATES / "model" / "include")
            ran = said(compiler, f"-std={standard}", *STRICT, *defines, *places, source)
            faults += [f"{header} {' '.join(defines)}: {ran.stderr}"] if ran.returncode else []
    tally.judge(name, faults)


def built(tally, folder, library, source):
    program = folder / pathlib.Path(source).stem
    words = (c_compiler(), "-std=gnu11", "-O2", "-Wall", "-Wextra", "-Werror", "-I", INCLUDE, "-o", program)
    ran = said(*words, TESTS / source, *WAITS.glob("*.c"), library, allocator(), "-lpthread")
    return program if tally.judge(f"{source} is built", ran.stderr if ran.returncode else ()) else None


def lines_of(tally, program, *words):
    """What a program prints, as words: each answer is a number from 0 on, or a refusal's name."""
    ran = said(program, *words)
    tally.judge(f"{program.name} runs", f"{ran}" if ran.returncode or ran.stderr else ())
    return [line.split() for line in ran.stdout.splitlines()]


def named(answer, names):
    return int(answer) if int(answer) >= 0 else names[int(answer)]


def is_of_table(rows, line):
    """Whether a line has a call of the table. (The loops of safepoint_wait.h aren't in it.)"""
    return line[0] in KINDS and line[-3 if line[0] == "in" else -2] in rows


def faults_of(rows, names, lines):
    """Which answers aren't in the table, and which of its refusals weren't met."""
    faults, met = [], set()
    for line in (it for it in lines if is_of_table(rows, it)):
        fault, pair = judged(rows, names, line)
        faults += [f"{' '.join(line)}: {fault}"] if fault else []
        met.add(pair)
    wanted = {(row.call, it) for row in rows.values() for it in row.refusals}
    return faults, [f"{call} is never refused {it}" for call, it in sorted(wanted - met) if not is_unmet(call, it)]


def judged(rows, names, line):
    """The fault of a line, and its call with its answer."""
    if line[0] == "by":
        _, kind, call, answer = line
        answer = named(answer, names)
        return call_table.fault_by(rows[call], kind, answer), (call, answer)
    if line[0] == "in":
        _, state, back, told, call, answer, after = line
        answer = named(answer, names)
        return call_table.fault_in(rows[call], state, back, told, answer, after), (call, answer)
    _, call, answer = line
    answer = named(answer, names)
    is_right = isinstance(answer, int) or rows[call].may_refuse(answer)
    return None if is_right else "its row doesn't have it", (call, answer)


def judge_plants(tally, text, names, lines):
    for place, planted in PLANTS:
        rows = call_table.table(text.replace(place, planted))
        is_found = text.count(place) == 1 and any(faults_of(rows, names, lines))
        fault = () if is_found else "it passes, or its place isn't there once"
        tally.judge(f"the table with {planted.strip()!r}", fault)


def walked(tally, folder, library):
    text, names = call_table.HEADER.read_text(), call_table.names()
    rows = call_table.table(text)
    differ = set(rows) ^ set(declared(INCLUDE / "safepoint.h"))
    tally.judge("the table has each call", f"{differ}" if differ else ())
    programs = [built(tally, folder, library, it) for it in ("safepoint_table.c", "safepoint_calls.c")]
    if not all(programs):
        return
    lines = lines_of(tally, programs[0]) + lines_of(tally, programs[1], "--met")
    seen = {kind: sum(it[0] == kind and is_of_table(rows, it) for it in lines) for kind in KINDS}
    tally.judge("answers of each kind", () if all(seen.values()) else f"{seen}", f"{seen}")
    faults, unmet = faults_of(rows, names, lines)
    tally.judge("each answer is in the table", faults[:20])
    tally.judge("each refusal of the table was met", unmet)
    growing = {row.call for row in rows.values() if "NO_MEMORY" in row.refusals} ^ GROWING
    tally.judge("the calls that take memory", f"{growing}" if growing != {"sp_drive"} else ())
    judge_plants(tally, text, names, lines)


def main(words):
    if len(words) != 1:
        sys.exit("header.py LIBSAFEPOINT")
    tally = Tally()
    with tempfile.TemporaryDirectory() as name:
        folder = pathlib.Path(name)
        for compilers, end, standards, headers in LANGUAGES:
            for it in ((compiler, end, standard) for compiler in compilers for standard in standards):
                compiles(tally, folder, *it, headers)
        if tally.has(c_compiler(), "the table of safepoint.h"):
            walked(tally, folder, pathlib.Path(words[0]).resolve())
    return tally.end()


if __name__ == "__main__":
    sys.exit(main(sys.argv[1:]))
