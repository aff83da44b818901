#!/usr/bin/env python3
"""Looks for an order of recorded runs of real threads.

witness.py LIBSAFEPOINT MONITOR [SEEDS] [--liars] [--many N [FIRST]]

| what | how |
|---|---|
| `witness_threads.c`, SEEDS seeds (3 without a number) for some counts of threads | with futex and condition |
| `crates/test_soak` with SEEDS seeds for some counts of threads | recorded by `recorder` |
| `examples/jit` runs for a moment, and `timeline` draws it | recorded |
| each log has an order | `witness --order`; MONITOR answers its lines as the log says, and `confirm` writes them |
| logs by hand in `calls`, texts that are no logs, and bad words | what `witness` says of each is what it must say |
| --liars: the recorder hears lies | each kind is found out within ten runs |
| --many N FIRST: N runs of 2 to 16 threads, from number FIRST (0) on | each has an order; calls a second, the slowest |

What can't run for want of a C compiler, or since `test_soak`, `timeline` or `confirm` isn't built, is skipped by name.
The last line is `N passed, N failed, N skipped`; the status is 0 where none failed.
"""
import pathlib
import re
import subprocess
import sys
import tempfile
import time

from safepoint import CRATE, FLAGS, JIT, WAITS
from tally import Tally, c_compiler
from toolchain import allocator

TESTS = pathlib.Path(__file__).resolve().parent
ROOT = TESTS.parent
WITNESS = ROOT / "witness" / "witness"
sys.path.insert(0, str(WITNESS.parent))
from calls import read_log
from confirming import confirmed, order_text
from search import FOUND, Search

CONFIRM = ROOT / "crates" / "confirm" / "out" / "confirm"
TIMELINE = ROOT / "crates" / "timeline" / "out" / "timeline"
SOAK = ROOT / "crates" / "test_soak" / "out" / "test_soak"
# Threads and rounds of its runs.
SOAK_RUNS = ((1, 40), (2, 24), (3, 24), (6, 10), (16, 4))
# Where the log of a run goes that has no order.
OUT = ROOT / "out"
# Threads and seconds of a run of examples/jit.
JIT_RUNS = ((1, "0.02"), (3, "0.1"))
THREADS = (2, 3, 4, 6, 8, 12, 16)
# Of the threads in a run, which are some 1,000 calls with the coordinator's.
STEPS = 710
SECONDS = 600
RECORD, CONDITION = "-DSP_RECORD", "-DSP_PTHREAD"
# What each liar stands before.
LIARS = {
    "hold": ("hold", "release"),
    "drive": ("called_place",),
    "call": ("call", "install"),
    "publish": ("publish",),
    "stop": ("stop_next", "stop_serve"),
}
LIED_RUNS, LIED_STEPS = 10, 6000
# Of the search for one of many runs.
MOST_STEPS, MOST_SECONDS = 20_000_000, 60
HEAD = "witness 1\nsize 1 1 1\n"
# A text that is no log, and what is said of it.
BAD_LOGS = (
    ("", "header"),
    ("witness 2\nsize 1 1 1\n", "header"),
    ("witness 1\nsize 1 1\n", "header"),
    ("witness 1\nsize 65 1 1\n", "header"),
    (HEAD + "0 0 1 start : thread 1 0", "line 3: no newline"),
    (HEAD + "0 0 1 start : thread 1 0\n0 2 3 jump 0 : ok\n", "line 4: call"),
    (HEAD + "x 0 1 start : thread 1 0\n", "line 3: stream"),
    (HEAD + "0 00 1 start : thread 1 0\n", "line 3: before"),
    (HEAD + "0 0 x start : thread 1 0\n", "line 3: after"),
    (HEAD + "0 0 1099511627776 start : thread 1 0\n", "line 3: after"),
    (HEAD + "0 0 1 start 5 : thread 1 0\n", "line 3: arguments"),
    (HEAD + "0 0 1 start thread 1 0\n", "line 3: arguments"),
    (HEAD + "0 0 1 start : thread 1\n", "line 3: values"),
    (HEAD + "0 0 1 start : ?\n", "line 3: answer"),
    ("witness 1 jobs\nsize 1 1 1\n0 0 1 stop 0 : ok ; 1 2 3\n", "line 3: jobs"),
    (HEAD + "0 5 4 start : thread 1 0\n", "tickets of a stream don't rise"),
    ("witness 1 jobs\nsize 1 1 1\n0 0 2 start : thread 1 0 ; 1 1 0 3\n", "tickets of a stream don't rise"),
)
NO_ORDER = "witness: no order: all was tried\ncalls in order: "
NOT_FOUND = "witness: no order found within the budget\ncalls in order: "
BAD_WORDS = (["--budget"], ["--budget", "x"], ["one"], ["--seconds", "-1"])


class Tests(Tally):
    def __init__(self, library, monitor, folder):
        super().__init__()
        self.archives, self.monitor, self.folder = [library, allocator()], monitor, folder

    def is_built(self, program, *names):
        """Whether the program is built. Else the tests of these names are skipped."""
        for name in () if program.is_file() else names:
            self.skip(name, f"{program.name} isn't built")
        return program.is_file()

    # --- programs of C

    def compiled(self, name, source, *words):
        made = self.folder / f"{name}.o"
        command = [c_compiler(), "-std=gnu11", *FLAGS, "-I", CRATE / "include", *words]
        subprocess.run([*command, "-c", source, "-o", made], check=True, timeout=SECONDS)
        return made

    def linked(self, name, objects):
        program = self.folder / name
        command = [c_compiler(), "-o", program, *objects, *self.archives, "-lpthread"]
        subprocess.run(command, check=True, timeout=SECONDS)
        return program

    def built(self, name, source, *words, liar=None):
        """A program whose calls are recorded; the recorder hears a liar where one is named."""
        lies = [f"-Dsp_{call}=lying_{call}" for call in LIARS.get(liar, ())]
        words_of = {page: (RECORD, *words, *(lies if page.stem == "safepoint_record" else ())) for page in WAITS}
        objects = [self.compiled(f"{name}_{page.stem}", page, *words_of[page]) for page in WAITS]
        objects.append(self.compiled(name, source, RECORD, *words, *(["-DLIES"] if liar else ())))
        if liar:
            objects.append(self.compiled(f"{name}_liar", TESTS / "witness_liars.c"))
        return self.linked(name, objects)

    def log(self, program, *words):
        """What the program writes, or None where it fails."""
        ran = subprocess.run([program, *map(str, words)], capture_output=True, timeout=SECONDS, text=True)
        return None if ran.returncode or ran.stderr else ran.stdout

    # --- an order

    def witness(self, log, *words):
        return subprocess.run([WITNESS, *words], input=log, capture_output=True, text=True, timeout=SECONDS)

    def replayed(self, lines):
        ran = subprocess.run([self.monitor, "replay"], input=lines, capture_output=True, text=True, timeout=SECONDS)
        return ran.stdout.splitlines()

    def fault_of(self, log):
        """Why there is no right order for the log, or None."""
        if log is None:
            return "the run failed"
        found = self.witness(log, "--order")
        if found.returncode:
            return f"status {found.returncode}: {found.stderr[:2000]}"
        return self.fault_of_order(log, found.stdout)

    def fault_of_order(self, log, order):
        """Why the core doesn't answer in this order as the log says, or `confirm` doesn't take it; or None."""
        made = made_in(order[len(log):])
        lines = lines_of(log, made)
        return disagreement(log, made, self.replayed(lines)[1:]) or self.unconfirmed(order, lines)

    def unconfirmed(self, order, lines):
        """Why `confirm` doesn't write these lines, or None; None too where it isn't built."""
        if not CONFIRM.is_file():
            return None
        written, said = confirmed(CONFIRM, order)
        return None if written == lines else f"confirm: {said}"

    def unwritten(self, log):
        """Why `witness` by itself doesn't write lines of the log, or None; None too where `confirm` isn't built."""
        if not CONFIRM.is_file():
            return None
        found = self.witness(log)
        is_begun = found.stdout.startswith(log.splitlines()[1] + "\n")
        return None if found.returncode == 0 and is_begun else f"status {found.returncode}: {found.stderr[:500]}"


def made_in(order):
    """The events of an order, each with the number of its call."""
    made = [line.partition(" ") for line in order.splitlines()[1:]]
    return [(int(number), line) for number, _, line in made]


def lines_of(log, made):
    return "".join(f"{line}\n" for line in (log.splitlines()[1], *(line for _, line in made)))


# --- what the core answers beside what was recorded

def answer_of(call, words, made):
    """Whether the events of a call, each with its answer, say what it is recorded to answer."""
    said, numbers = words[0], words[1:]
    lines, answers = [line for line, _ in made], [answer for _, answer in made]
    if said == "?" or call in ("live", "replies", "drive", "drivefour") or call.startswith("reclaim"):
        return True
    if not made:
        return False
    last = answers[-1]
    if said in ("go", "stop") or said in ("told", "gone"):
        return last == " ".join(words)
    if said in ("closed", "asked", "code", "open"):
        return f"{last} ".startswith(" ".join(words) + " ")
    if said == "compiled":
        return last == "entered" and lines[-1].split()[3:] == numbers
    if said == "interpreted":
        return last == "entered"
    if said == "thread":
        return f"thread {numbers[0]} place {numbers[1]}" in answers
    if said in ("exited", "servedexited"):
        return last == f"exited {numbers[0]}"
    if said == "census":
        counts = "".join(f" {serial}:{count}" for serial, count in zip(numbers[1::2], numbers[2::2]))
        return f"census{counts}" in answers
    if said in ("ok", "served"):
        return not any(answer.startswith("refused") for answer in answers)
    return last.startswith("refused") or said == "NotSafe"


def disagreement(log, made, answers):
    """The first call whose events answer another thing than is recorded, or None."""
    if len(made) != len(answers):
        return f"{len(answers)} answers to {len(made)} events"
    calls = log.splitlines()[2:]
    by_call = [[] for _ in calls]
    for (number, line), answer in zip(made, answers):
        by_call[number].append((line, answer))
    for text, events in zip(calls, by_call):
        front, _, said = text.partition(" : ")
        said, _, jobs = said.partition(" ; ")
        replies = [answer for _, answer in events if answer.startswith("reply")]
        is_answered = answer_of(front.split()[3], said.split(), events)
        if not is_answered or jobs and replies != [f"reply {reply}" for reply in jobs.split()[2::4]]:
            return f"{text}: {events}"
    return None


# --- what is tried

def by_hand(tests):
    """Logs of `calls`."""
    for page in sorted((TESTS / "calls").glob("*.log")):
        log = page.read_text()
        if page.stem.startswith("no_order"):
            ran = tests.witness(log, "--order")
            is_told = ran.returncode == 1 and ran.stderr.startswith(NO_ORDER) and not ran.stdout
            tests.judge(page.name, None if is_told else f"status {ran.returncode}, {ran.stderr[:500]}")
        else:
            tests.judge(page.name, tests.fault_of(log) or tests.unwritten(log))
    tests.is_built(CONFIRM, "each order, taken by confirm", "witness by itself, of each log by hand")


def faults(tests):
    for text, what in BAD_LOGS:
        ran = tests.witness(text)
        is_told = (ran.returncode, ran.stdout, ran.stderr) == (2, "", f"witness: bad log: {what}\n")
        tests.judge(what, None if is_told else f"{text!r}: {ran.stderr}")
    for words in BAD_WORDS:
        ran = tests.witness("", *words)
        is_told = (ran.returncode, ran.stdout, ran.stderr) == (2, "", "witness: bad words\n")
        tests.judge(f"words {words}", None if is_told else ran.stderr)


def budgets(tests):
    """A budget of steps or of time that doesn't do is told, with a beginning."""
    log = (TESTS / "calls" / "drives.log").read_text()
    for words in (("--budget", "3"), ("--seconds", "0")):
        ran = tests.witness(log, *words)
        is_told = ran.returncode == 1 and ran.stderr.startswith(NOT_FOUND)
        tests.judge(f"words {words}", None if is_told else f"status {ran.returncode}, {ran.stderr[:500]}")


def recorded(tests, seeds):
    kinds = [(words, seed, count) for words in ((), (CONDITION,)) for seed in range(1, seeds + 1) for count in THREADS]
    names = {it: f"{it[2]} threads, seed {it[1]} {' '.join(it[0])}" for it in kinds}
    if not tests.has(c_compiler(), *names.values()):
        return
    programs = {}
    for (words, seed, count), name in names.items():
        if words not in programs:
            programs[words] = tests.built("threads" + "".join(words), TESTS / "witness_threads.c", *words)
        tests.judge(name, tests.fault_of(tests.log(programs[words], count, STEPS, seed)))


def recorded_in_rattle(tests, seeds):
    runs = [(*run, seed) for seed in range(1, seeds + 1) for run in SOAK_RUNS]
    names = [f"recorded, {count} threads, seed {seed}" for count, _, seed in runs]
    if tests.is_built(SOAK, *names):
        for name, run in zip(names, runs):
            tests.judge(name, tests.fault_of(tests.log(SOAK, *run, "record")))


def jit(tests):
    names = [f"jit, {count} threads" for count, _ in JIT_RUNS]
    if not tests.has(c_compiler(), *names, *(f"{name}, drawn" for name in names)):
        return
    program = tests.built("jit", JIT)
    is_drawn = tests.is_built(TIMELINE, *(f"{name}, drawn" for name in names))
    for name, run in zip(names, JIT_RUNS):
        log = tests.log(program, *run)
        if tests.judge(name, tests.fault_of(log)) and is_drawn:
            tests.judge(f"{name}, drawn", undrawn(tests, log))


def undrawn(tests, log):
    """Why `timeline` doesn't draw the order of a log, or None."""
    lines = lines_of(log, made_in(tests.witness(log, "--order").stdout[len(log):]))
    how = {"input": lines, "capture_output": True, "text": True, "timeout": SECONDS}
    ran = subprocess.run([TIMELINE, "--to", "2000"], **how)
    return None if ran.returncode == 0 and ran.stdout.startswith("<svg ") else f"status {ran.returncode}: {ran.stderr}"


def liars(tests):
    if not tests.has(c_compiler(), *(f"a lie about {liar}" for liar in LIARS)):
        return
    for liar in LIARS:
        program = tests.built(f"lies_{liar}", TESTS / "witness_threads.c", liar=liar)
        found = next(filter(None, (found_out(tests, program, seed) for seed in range(1, LIED_RUNS + 1))), None)
        tests.judge(f"a lie about {liar}", None if found else f"not found out in {LIED_RUNS} runs", found)


def found_out(tests, program, seed):
    """What is said of a run that has no order; None where there is one."""
    log = tests.log(program, 4, LIED_STEPS, seed)
    ran = tests.witness(log, "--order", "--seconds", "20") if log else None
    return f"run {seed}: {', '.join(ran.stderr.splitlines()[:2])}" if ran and ran.returncode == 1 else None


def many(tests, runs, first):
    """Prints how many runs have an order, and how long a processor read and searched their logs."""
    if not tests.has(c_compiler(), f"{runs} runs, from number {first} on"):
        return
    program = tests.built("many", TESTS / "witness_threads.c")
    OUT.mkdir(exist_ok=True)
    found = calls = taken = slowest = 0
    for run in range(first, first + runs):
        count = 2 + run % 15
        log = tests.log(program, count, STEPS, 100_000 + run)
        if not tests.judge(f"{count} threads, run {run}", None if log else "the run failed"):
            continue
        begun = time.process_time()
        search = Search(read_log(log), MOST_STEPS, MOST_SECONDS)
        why = None if search.run() == FOUND else "none was found"
        lasted = time.process_time() - begun
        why = why or tests.fault_of_order(log, order_text(log, search.made))
        if why:
            (OUT / f"run_{run}.log").write_text(log)
        found += tests.judge(f"{count} threads, run {run}: an order", why)
        calls, taken, slowest = calls + search.total, taken + lasted, max(slowest, lasted)
        if run % 100 == 99 or run == first + runs - 1:
            done, rate = run + 1 - first, calls / taken
            told = f"{calls} calls, {rate:.0f} a second, {slowest:.2f} s the slowest"
            print(f"{found} of {done} runs have an order; {told}", flush=True)


def main():
    words = sys.argv[1:]
    runs = first = 0
    if "--many" in words:
        at = words.index("--many")
        runs, first = (int(word) for word in (words[at + 1:] + ["0"])[:2])
        del words[at:at + 3]
    has_liars = "--liars" in words
    words = [word for word in words if word != "--liars"]
    if not 2 <= len(words) <= 3 or len(words) == 3 and not re.fullmatch("[0-9]+", words[2]):
        sys.exit("witness.py LIBSAFEPOINT MONITOR [SEEDS] [--liars] [--many N [FIRST]]")
    with tempfile.TemporaryDirectory() as folder:
        tests = Tests(pathlib.Path(words[0]).resolve(), pathlib.Path(words[1]).resolve(), pathlib.Path(folder))
        by_hand(tests)
        faults(tests)
        budgets(tests)
        seeds = int(words[2]) if len(words) == 3 else 3
        recorded(tests, seeds)
        recorded_in_rattle(tests, seeds)
        jit(tests)
        if has_liars:
            liars(tests)
        if runs:
            many(tests, runs, first)
        return tests.end()


if __name__ == "__main__":
    sys.exit(main())
