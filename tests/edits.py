#!/usr/bin/env python3
"""Tries the wrong bodies, of all crates or of those named: edits.py [--beside LOG [MINUTES] | --all | CRATE ..]

The folders must-fail and wrong-bodies of a crate hold edits, each of which gives one of its functions a wrong body. The
contract of that function must refuse it. Those of must-fail show most, and `rt ci` tries them; here they are tried only
where their crate is named, or with --all. An edit has the lines `file:`, `old:` and `new:`. One that changes a constant
has the line `of:` too, after `file:`, with the function whose contract must refuse it. One with which tests of the gate
fail has a line `caught by:`, which names them; those too are tried only where their crate is named, or with --all. An
edit of a folder must-pass means the same as before, and must be proved: it shows that not all there is is refused.

`rt ci` tries each edit in a check of its own, which costs 15 seconds or more, most of them spent on reading what the
crate stands on. A check says of each function by itself whether it is proved, and a function's proof rests on the
contracts of other functions and never on their bodies. So here one check has all edits of a crate. Of those that change
one function the first stands in its place, and the others in copies of it, under other names with its contract and its
proof (`wrong_bodies.py`). An edit of a constant, and one of a function that can't be copied, is tried in a check beside
it.

An edit counts as refused where a goal of the function that has it is not proved, said of a line of that function or of
its own proof. That something which the function calls is not proved counts for nothing. A function that no edit changes
must be proved beside them. What isn't settled so is tried by itself, in a check of the whole crate: where a check
doesn't end, where a function is proved all the same, where a proof only names what isn't there.

An edit that fails only since a proof names what the edit took away shows nothing of a contract. It is a BAD EDIT, which
fails: such an edit must change a value and keep the names.

The libraries are those that `rt ci` left here. With --beside a crate's edits are tried as soon as a gate that still
runs says in LOG that the crate is proved, those of one crate at a time; once the gate has ended, of as many as there
are cores. Once so many MINUTES are over no further crate's edits are begun: each edit that is left is skipped, by name.
Where neither --all nor a CRATE is given, what the last run over the same text came to is kept (`kept.py`).
The last line is `N passed, N failed, N skipped`. The status is 0 where each edit that was tried was refused, and each
of must-pass proved.
"""
import concurrent.futures
import math
import os
import pathlib
import re
import shutil
import subprocess
import sys
import tempfile
import threading
import time

import kept
from minutes import minutes_of
from tally import Tally
from toolchain import ROOT, is_of_the_gate, toolchain
from wrong_bodies import CAUGHT, PARTS, Bad, Edit, Trial, cycle_mates, grouped, types_of, write

# The folders of a crate's edits, and those of them that the gate doesn't read.
FOLDERS = ("must-fail", "must-pass", "wrong-bodies")
FURTHER = FOLDERS[1:]
# A line that says where something is not proved, and what it says.
TOLD = re.compile(
    r"(?:note: (?=\S+ it is not proved that )|(?=\S+ error: ))(?:\./)?((?:src|proofs)/\S+?):(\d+):\d+: (.*)"
)
# What is said where a text names something that an edit took away or that is itself not proved, which shows nothing of
# a contract.
NAMES = re.compile(r"is not in scope|has no field|has no `|is no name|was not admitted")
# What a gate's log says of a crate that is proved, and at its end.
PROVED = re.compile(r"(?m)^rt: (\w+) (?:proved|is kept: .*)$")
ENDED = re.compile(r"(?m)^\d+ passed, \d+ failed$")


class Verdicts:
    """What a check says of each function: whether it is proved, and where something of it is not."""

    def __init__(self, said):
        self.words, self.told = {}, []
        for line in said.split("\n"):
            told = TOLD.match(line)
            if told:
                self.told.append((told[1], int(told[2]), told[3]))
            elif line.startswith("fn "):
                path, _, words = line[3:].partition(": ")
                self.words[path.partition("::")[2]] = words
        self.is_whole = re.search(r"(?m)^only=\d", said) is not None

    def refusal(self, function):
        """What is said of a goal of this function that is not proved, or None."""
        if not self.words.get(function.path, "").startswith(("no proof", "not proved")):
            return None
        is_here = lambda file, at: file == function.file and function.first <= at <= function.last
        return goal_of(said for file, at, said in self.told if is_here(file, at) or is_proof_of(file, function))

    def stray(self, paths):
        """Whether a function beside these is not proved, for another reason than that something it calls is not."""
        bad = [path for path, words in self.words.items() if not is_well(words)]
        return any(not any(is_in(path, it) for it in paths) for path in bad)


def is_in(path, function):
    """Whether a path is that of a function, or of a closure in it, as `module::fn::function::closure`."""
    return f"::{path}::".replace("::fn::", "::", 1).startswith(f"::{function}::")


def is_proof_of(file, function):
    """Whether a file is of the written proof of a function, of a closure in it, or of its cycle of calls."""
    folder = pathlib.PurePath(file).parent
    is_of_cycle = function.cycle is not None and folder.name == f"+{function.cycle}"
    return is_of_cycle or is_in("::".join(folder.parts[1:]), function.path)


def goal_of(told):
    """The first of these texts that speaks of a goal, and not of a name that is gone; None where there is none."""
    return next((it for it in told if not NAMES.search(it)), None)


def is_well(words):
    """Whether a function is proved, or only lacks the proof of something that it calls."""
    reasons = [it for it in re.split(r"[:;] ", words)[1:] if not re.match(r"it (calls|passes|waits)|in `", it)]
    is_of_calls = re.search(r"it (calls|passes|waits)|a call of", words) is not None
    return words.startswith("proved") or is_of_calls and not reasons


class Bench:
    """A crate, copies of which are checked with its edits."""

    def __init__(self, rtlib, crate, room):
        self.rtlib, self.crate, self.room = rtlib, crate, room
        self.folder = pathlib.Path(crate.folder)
        self.types = types_of(self.folder)

    def check(self, trials, *words):
        """Checks the crate with these trials in it; returns how that ended, and the functions of the changed files."""
        with tempfile.TemporaryDirectory(dir=self.room) as room:
            copy = pathlib.Path(room)
            for part in PARTS:
                if (self.folder / part).is_dir():
                    shutil.copytree(self.folder / part, copy / part)
            functions = write(copy, trials, self.types)
            command = [self.rtlib.RATTLE, "check", *self.crate.words(["--jobs", "1"], keeps=False), *words]
            how = {"stdin": subprocess.DEVNULL, "stdout": subprocess.PIPE, "stderr": subprocess.STDOUT}
            ran = subprocess.run([*self.rtlib.guarded(), *command], cwd=copy, errors="replace", **how)
            return ran, functions

    def together(self, trials, beside):
        """Tries edits in one check, and notes what is said of those that it refuses. The verdict of those beside them
        an earlier check kept."""
        paths = {it for trial in trials for it in trial.paths}
        only = [word for path in sorted(paths) for word in ("--only", path)]
        ran, functions = self.check([*beside, *trials], "--incremental", f"{self.room}/kept", *only)
        verdicts = Verdicts(ran.stdout)
        wrong = {it for trial in [*beside, *trials] for it in trial.paths}
        is_stray = not trials[0].edit.reaches_far and verdicts.stray(wrong | cycle_mates(wrong, functions.values()))
        if not verdicts.is_whole or is_stray:
            if len(trials) > 1:
                self.together(trials[: len(trials) // 2], [])
                self.together(trials[len(trials) // 2 :], [])
            return
        for trial in trials:
            refusals = (verdicts.refusal(functions[it]) for it in sorted(trial.paths & functions.keys()))
            trial.edit.said = next(filter(None, refusals), None)
            trial.edit.is_proved = all(verdicts.words.get(it, "").startswith("proved") for it in trial.paths)

    def alone(self, edit):
        """Tries an edit by itself; returns whether it is refused, and what to say."""
        ran, _ = self.check([Trial(edit)])
        lines = ran.stdout.rstrip("\n").split("\n")
        told = [said for _, _, said in Verdicts(ran.stdout).told]
        if ran.returncode == 0:
            return False, "NOT REFUSED: the crate is still proved with this edit"
        if ran.returncode == 1 and lines[-1].startswith("logic=not-proved") and told:
            edit.said = goal_of(told)
            only_names = f"BAD EDIT: only a proof that names what the edit took away fails: {told[0][:160]}"
            return edit.said is not None, "" if edit.said else only_names
        return False, "\n  ".join([f"NOT TRIED: its check ended with status {ran.returncode}", *lines[:6]])


def tried(rtlib, crate, room, with_all):
    """Tries a crate's edits, with those that the gate tries and those that tests catch or not. Returns, for each, its
    name, whether it is refused, and what to say."""
    bench, edits, results = Bench(rtlib, crate, room), [], []
    for path in edits_of(crate.folder, FOLDERS if with_all else FURTHER):
        try:
            edits.append(Edit(path, bench.folder, bench.types))
        except Bad as why:
            results.append((path.name, False, f"BAD EDIT: {why}"))
    edits = [it for it in edits if with_all or not it.is_caught]
    pending = edits
    while pending:
        beside = []
        for group in grouped(pending, bench.folder):
            bench.together(group, [it for it in beside if it.is_apart(group)])
            beside = beside or group
        left = [it for it in pending if not it.said and not it.is_proved]
        pending = left if len(left) < len(pending) else []
    return sorted([*results, *((it.name, *verdict(bench, it)) for it in edits)])


def tried_or_kept(rtlib, crate, room):
    """As `tried`, without the edits that the gate tries. Where the last run over the same text kept what they came to,
    that is said again."""
    text = kept.text_of(rtlib, crate, FURTHER)
    results = kept.kept(crate, text)
    if results is not None:
        return [(name, is_well, f"{said} (kept)") for name, is_well, said in results]
    results = tried(rtlib, crate, room, with_all=False)
    kept.keep(crate, text, results)
    return results


def verdict(bench, edit):
    """Whether an edit came to what it must, and what to say."""
    if edit.is_control:
        return edit.is_proved, "proved, as it must be" if edit.is_proved else "NOT PROVED, though it changes no meaning"
    is_refused, why = (True, "") if edit.said else bench.alone(edit)
    return is_refused, why or f"refused, as it must be: {edit.said[:160]}"


def edits_of(folder, folders):
    return sorted(it for name in folders for it in pathlib.Path(folder, name).glob("*.edit"))


def names_left(crate):
    """The edits of a crate that are tried beside a gate, by their names."""
    return [it.name for it in edits_of(crate.folder, FURTHER) if not CAUGHT.search(it.read_text())]


def crates_with_edits(rtlib, names):
    """The crates that have edits, all or those of the names; first those that take the most time, which else would end
    the run alone."""
    known, size = {}, lambda it: sum(f.stat().st_size for f in it.glob("src/**/*.rt"))
    order = lambda it: (-minutes_of(it.name, "further"), -size(it))
    folders = sorted((it for it in ROOT.glob("crates/*") if edits_of(it, FOLDERS)), key=order)
    return [rtlib.Crate(str(it), str(ROOT), known) for it in folders if not names or it.name in names]


class Gate:
    """A gate that may still run: which crates it has proved, by its log, and whether it has ended. With no log it
    has ended."""

    def __init__(self, log):
        self.log = log
        self.proved, self.has_ended = set(), log is None

    def look(self):
        if not self.has_ended:
            said = self.log.read_text(errors="replace")
            self.proved, self.has_ended = set(PROVED.findall(said)), ENDED.search(said) is not None

    def lets(self, crate):
        """Whether the libraries below the crate stand."""
        return (self.has_ended or crate.name in self.proved) and all(map(is_of_the_gate, crate.below()))


def in_turn(crates, gate, one, end):
    """Does `one` with each crate that the gate lets it try before the end, one at a time while the gate runs. Returns
    the crates that are left."""
    cores = len(os.sched_getaffinity(0))
    left, running = list(crates), set()
    with concurrent.futures.ThreadPoolExecutor(cores) as pool:
        while left or running:
            gate.look()
            is_over = time.monotonic() >= end
            room = 0 if is_over else (cores if gate.has_ended else 1) - len(running)
            for crate in [it for it in left if gate.lets(it)][: max(room, 0)]:
                left.remove(crate)
                running.add(pool.submit(one, crate))
            if (gate.has_ended or is_over) and not running:
                break
            done, running = concurrent.futures.wait(running, timeout=1, return_when=concurrent.futures.FIRST_COMPLETED)
            for it in done:
                it.result()
            if not running:
                time.sleep(1)
    return left


def judge_left(tally, left, minutes, is_late):
    """Counts the crates whose edits weren't tried: they are skipped where the time is over, and have failed else."""
    for crate in left:
        for name in names_left(crate) if is_late else ():
            tally.skip(f"wrong body {crate.name}/{name}", f"{minutes} minutes are over; make edits tries it")
        if not is_late:
            tally.judge(f"edits.py: {crate.name}", "it has no libraries that rt ci left: run it by make edits")


def main(words):
    log = pathlib.Path(words[1]) if words[:1] == ["--beside"] else None
    minutes = float(words[2]) if log and len(words) > 2 else math.inf
    end = time.monotonic() + 60 * minutes
    names = [it for it in words if not it.startswith("--")] if log is None else []
    rtlib, _ = toolchain()
    rtlib.guarded()  # its first call sets a handler of signals, which the main thread alone may
    tally, counting, with_all = Tally(), threading.Lock(), bool(words) and log is None

    def one(crate):
        with tempfile.TemporaryDirectory(prefix="edits-") as room:
            results = tried(rtlib, crate, room, True) if with_all else tried_or_kept(rtlib, crate, room)
        with counting:
            for name, is_well, text in results:
                tally.judge(f"wrong body {crate.name}/{name}", None if is_well else text, shows=text)

    left = in_turn(crates_with_edits(rtlib, names), Gate(log), one, end)
    judge_left(tally, left, words[2] if math.isfinite(minutes) else "", time.monotonic() >= end)
    return tally.end()


if __name__ == "__main__":
    sys.exit(main(sys.argv[1:]))
