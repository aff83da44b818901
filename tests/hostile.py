#!/usr/bin/env python3
"""Tests that one run of the gate doesn't show: hostile.py [threads|memory] [--crate NAME] [--built]

threads  Each test that runs several threads, twenty times. It passes each time, within its seconds, and prints the
         same.
memory   Each test that is made for refused memory, with its first growth refused, with its second, and so on until none
         is. It passes each time, says what was refused, and the growths come to an end where nothing was. Those of
         `test_desk` may also end with the error of refused memory. All of these need a C compiler, for the library
         that refuses the growths: without one each is skipped.

No test that is made for refused memory is left out: each says `no growth was refused` where it runs without refusals,
and each crate whose sources have that text must be in the list (`MEMORY`), with each test that has it.

Without a word it does both. `rt test` proves the tests of each crate first, and builds them. With `--built` those run
that the gate left behind; a test whose crate isn't built fails. The last line is `N passed, N failed, N skipped`; the
status is 0 where none failed.
"""
import argparse
import pathlib
import re
import subprocess
import sys
import tempfile

import refusing
from tally import Tally, c_compiler

CRATES = pathlib.Path(__file__).resolve().parent.parent / "crates"
RUNS = 20
SECONDS = 60
BUILD_SECONDS = 3600
MOST_GROWTHS = 2000

# So many growths in a row that the test didn't meet end a sweep: one may be refused without harm, where what asked for
# it has another way.
QUIET_GROWTHS = 20

THREADS = {
    "test_words": [
        "tests::poll_rows::no_arming_is_lost_to_a_clear",
        "tests::poll_rows::the_armer_is_in_another_thread",
        "tests::stopped::a_publication_is_looked_at_from_another_thread_at_each_boundary",
    ],
    "test_running": [
        "tests::threads::four_threads_call_and_return",
        "tests::four::four_are_closed_over_two_running_threads",
        "tests::many::sixty_four_threads_shake_hands_a_thousand_times",
        "tests::meeting::one_job_waits_for_the_other",
        "tests::census::a_census_counts_what_the_words_count",
        "tests::invalidated::no_call_enters_what_is_seen_invalidated",
        "tests::leaving::a_thread_that_exits_is_gone_or_has_answered",
    ],
    "test_workers": ["tests::runs::four_ticks_meet", "tests::runs::codes_are_replaced_while_threads_run"],
    "test_cli": [
        "tests::running::four_threads_run_a_loop_of_calls",
        "tests::running::two_ticks_meet",
        "tests::running::refused_memory_prints_nothing",
    ],
}

# Those of a list meet the same at each growth.
MEMORY = {
    "test_core": [
        ["tests::codes::want_of_memory_changes_nothing"],
        ["tests::requests::want_of_memory_hands_back"],
    ],
    "test_replay": [
        [
            "tests::refused_memory::refused_memory_leaves_the_answers_before_a_line",
            "tests::refused_memory::refused_memory_leaves_as_many_answers_of_a_block",
        ],
        ["tests::run_of_events::refused_memory_stops_a_run_before_its_event"],
    ],
    "test_script": [
        ["tests::refused_memory::refused_memory_is_told"],
        ["tests::refused_memory::refused_memory_leaves_a_beginning"],
    ],
    "test_words": [
        ["tests::poll_rows::a_row_is_made_whole_or_not_at_all"],
        ["tests::boards::a_board_is_made_whole_or_not_at_all"],
    ],
    "test_desk": [
        ["tests::sixty_four_requests_wait"],
        ["tests::a_handshake_is_answered_once"],
        ["tests::four_handshakes_are_answered_in_order_and_closed_in_any"],
        ["tests::a_code_is_reclaimed"],
        ["tests::a_code_is_installed_over_another"],
        ["tests::a_full_history_takes_no_entry"],
        ["tests::what_is_forgotten_has_no_replies"],
        ["tests::a_full_history_that_is_forgotten_goes_on"],
    ],
    "test_calls": [["tests::counted::what_lacks_memory_is_tried_again"]],
    "test_parties": [["tests::counted::what_lacks_memory_is_tried_again"]],
    "test_cli": [
        ["tests::refused_memory_writes_nothing"],
        ["tests::running::refused_memory_prints_nothing"],
    ],
}
NONE_REFUSED = "no growth was refused"
# What a sweep of these tests must meet.
TO_MEET = {
    ("test_parties", "tests::counted::what_lacks_memory_is_tried_again"): [
        "a system was refused",
        "k install 0 was refused",
        "a start was refused",
        "b start was refused",
        "k target 1 was refused",
        "k submit depth was refused",
        "k reply 1 1 was refused",
        "c operate was refused",
        "k reclaim 1 was refused",
    ],
    ("test_core", "tests::codes::want_of_memory_changes_nothing"): ["the table was refused", "install 1 was refused"],
    ("test_core", "tests::requests::want_of_memory_hands_back"): [
        f"request {number} was refused" for number in (1, 5, 9, 17)
    ],
    ("test_desk", "tests::a_full_history_takes_no_entry"): [
        "the desk was refused",
        "pass 499999 = 499999 was refused",
    ],
    ("test_calls", "tests::counted::what_lacks_memory_is_tried_again"): [
        "a coordinator was refused",
        "install 0 was refused",
        "start was refused",
        "submit census was refused",
        "drive was refused",
        "submit count_of 1 of 1 2 was refused",
        "reclaim 1 depth of 1 2 was refused",
    ],
    ("test_cli", "tests::refused_memory_writes_nothing"): ["refused before the check", "refused in the check"],
    ("test_cli", "tests::running::refused_memory_prints_nothing"): [
        "refused before the run",
        "refused in the run",
        "refused while threads were started",
    ],
}
PASSED = "test result: ok"

# The tests of these crates pass, or end with one of the errors: what std answers where a block, or the block of a box,
# isn't given.
ENDING = {"test_desk"}
ERRORS = ("error: AllocError\n", "error: AllocFailed { .. }\n")
ENDED = "ended with the error"

# A function of a Rattle file: whether it is a test, its name, and its text.
FUNCTION = re.compile(r"(?ms)^(#\[test\]\n)?(?:pub(?:\(\w+\))? )?fn (\w+).*?^\}")


def ran(words, seconds, **devices):
    """The status of a run, and all that it printed."""
    how = {"stdin": subprocess.DEVNULL, "stdout": subprocess.PIPE, "stderr": subprocess.STDOUT}
    try:
        it = subprocess.run(words, timeout=seconds, **how, **devices)
    except (OSError, subprocess.TimeoutExpired) as why:
        return None, str(why)
    return it.returncode, it.stdout.decode(errors="replace")


def tests_of(crate):
    """The tests of a crate, as the gate or `rt test` built them."""
    return CRATES / crate / "out" / f"{crate}_tests"


def test_of(crate, test, **devices):
    """A run of one test of a crate."""
    return ran([tests_of(crate), test], SECONDS, **devices)


def build(tally, crates):
    for crate in crates:
        status, said = ran(["rt", "test"], BUILD_SECONDS, cwd=CRATES / crate)
        tally.judge(f"{crate}, rt test", said.splitlines()[-20:] if status != 0 else None, shows="ok")


def unbuilt(crate):
    """That the tests of a crate aren't built, where they aren't."""
    return [] if tests_of(crate).is_file() else [f"its tests aren't built: there is no {tests_of(crate)}"]


def unlike(crate, test):
    """What is wrong of a test that runs twenty times."""
    runs = [test_of(crate, test) for _ in range(RUNS)]
    printed = sorted({said for _, said in runs})
    bad = sorted({f"status {status}: {said}" for status, said in runs if status != 0})
    return bad or (["it printed not the same each time:", *printed] if len(printed) > 1 else [])


def threads(tally, lists):
    for crate, tests in lists.items():
        for test in tests:
            tally.judge(f"{crate}, {test}", unbuilt(crate) or unlike(crate, test), shows=f"{RUNS} times")


def note_of(crate, status, said):
    """What a run says that was refused; None where the run went wrong."""
    lines = [line for line in said.splitlines() if line]
    if status == 0 and len(lines) == 2 and lines[1] == PASSED:
        return lines[0]
    return ENDED if crate in ENDING and status == 101 and said.startswith(ERRORS) else None


def swept(crate, test, library):
    """What a test said at each growth that was refused in turn, until it met none; and what was wrong."""
    notes = []
    if unbuilt(crate):
        return notes, unbuilt(crate)
    while notes[-QUIET_GROWTHS:] != [NONE_REFUSED] * QUIET_GROWTHS:
        growth = len(notes) + 1
        status, said = test_of(crate, test, env=refusing.asking(library, "REFUSE_GROWTH", growth))
        note = note_of(crate, status, said)
        if note is None:
            return notes, [f"growth {growth}: status {status}: {said}"]
        if growth > MOST_GROWTHS:
            return notes, [f"a growth is refused past {MOST_GROWTHS}"]
        notes.append(note)
    return notes, []


def met_by(notes):
    """What was refused in a sweep."""
    return [note for note in notes if note != NONE_REFUSED]


def faults_of(crate, test, notes):
    """What is wrong of a sweep that came to its end."""
    unmet = [f"never met: {note}" for note in TO_MEET.get((crate, test), []) if note not in notes]
    return unmet or ([] if met_by(notes) else ["nothing was refused"])


def memory(tally, lists, library):
    for crate, group in ((crate, group) for crate, groups in lists.items() for group in groups):
        sweeps = {test: swept(crate, test, library) for test in group}
        are_alike = len({tuple(notes) for notes, _ in sweeps.values()}) == 1
        for test, (notes, faults) in sweeps.items():
            faults = faults or faults_of(crate, test, notes)
            faults = faults or ([] if are_alike else ["the tests of its list meet others"])
            met = met_by(notes)
            shows = f"{len(met)} growths refused: {', '.join(dict.fromkeys(met))}"
            tally.judge(f"{crate}, {test}", faults, shows=shows)


def made_for_it(text):
    """The tests of a file that say so where nothing was refused, each by itself or by a function of that file."""
    functions = {found[2]: found for found in FUNCTION.finditer(text)}
    words = [NONE_REFUSED, *(f"{name}(" for name, it in functions.items() if NONE_REFUSED in it[0])]
    return [name for name, it in functions.items() if it[1] and any(word in it[0] for word in words)]


def left_out():
    """The tests that are made for refused memory and are in no list."""
    for file in sorted(CRATES.glob("*/src/**/*.rt")):
        text = file.read_text()
        if NONE_REFUSED in text:
            crate, _, *modules = file.relative_to(CRATES).with_suffix("").parts
            listed = [test for group in MEMORY.get(crate, []) for test in group]
            tests = ["::".join([*modules, it]) for it in made_for_it(text)]
            yield from (f"{crate}, {it}" for it in tests or [f"{file.name}: no test of it"] if it not in listed)


def sweeps(tally, lists):
    """The sweeps of growths, or that they are skipped."""
    names = [f"{crate}, {test}" for crate, groups in lists.items() for group in groups for test in group]
    if names and tally.has(c_compiler(), *names):
        with tempfile.TemporaryDirectory() as folder:
            memory(tally, lists, refusing.built_in(folder))


def main():
    words = argparse.ArgumentParser(description=__doc__, formatter_class=argparse.RawDescriptionHelpFormatter)
    words.add_argument("what", nargs="?", choices=["threads", "memory"])
    words.add_argument("--crate", choices=sorted({*THREADS, *MEMORY}), help="this crate alone")
    words.add_argument("--built", action="store_true", help="the tests as they were built last, without a proof")
    asked, tally = words.parse_args(), Tally()

    def chosen(lists, what):
        is_asked = asked.what in (None, what)
        return {crate: it for crate, it in lists.items() if is_asked and asked.crate in (None, crate)}

    of_threads, of_memory = chosen(THREADS, "threads"), chosen(MEMORY, "memory")
    if not asked.built:
        build(tally, sorted({*of_threads, *of_memory}))
    tally.judge("each test that is made for refused memory is in a list", [*left_out()], shows="ok")
    threads(tally, of_threads)
    sweeps(tally, of_memory)
    return tally.end()


if __name__ == "__main__":
    sys.exit(main())
