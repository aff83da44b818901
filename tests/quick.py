#!/usr/bin/env python3
"""Checks a change in minutes: quick.py [CRATE ..] | quick.py state | quick.py note TREE

It looks at the files that differ from the last state that passed. A run without a failure notes its state in
out/quick.json, and so does `make test`. Where none is noted, the state is the commit at which the branch left its
upstream, or else HEAD. Of what changed it checks this:

| what changed | what is checked |
|---|---|
| anything | the links of the pages, by tests/links.py |
| a crate's `src`, `specs`, `proofs`, or its line in crates.txt | its layout, and that it is proved |
| the same | the test crates above it, by what `rt try --test` runs |
| a crate below a library for C, or a file of C, C++ or Rust beside it | an unproved library, from these languages |
| a script in Python | that it compiles, and that no changed line is longer than 120 columns |
| a script of the shell | that `bash -n` reads it |

CRATE names crates to check in the place of those that changed; such a run notes nothing. The proof of a crate begins
with what the last check of it kept. It stands on the libraries that rt built in crates/*/out of the present state, or
else on those that the gate keeps on this machine: this script gives them to copies of the crates, in .git/quick. Where
neither has all of them and they would take long, the proof is skipped, by name: `rt check` in its folder does it.

Not checked: the crates above those that changed, wrong bodies, pictures. `make test` does all. The last line is
`N passed, N failed, N skipped`.
"""
import concurrent.futures
import importlib.machinery
import importlib.util
import json
import os
import pathlib
import py_compile
import re
import shutil
import subprocess
import sys
import tempfile
import time

import unproved
from minutes import minutes_of
from tally import Tally
from toolchain import ROOT

NOTE = ROOT / "out" / "quick.json"
COLUMNS = 120
OF_A_CRATE = re.compile(r"crates/(\w+)/(?:src|specs|proofs)/")
OF_C = re.compile(
    r"crates/\w+/(?:include|waits)/|bindings/|examples/(?:embed|gc|jit)/"
    r"|tests/(?:(?:hosts/)?\w+\.(?:c|cpp|h)|(?:safepoint|collector|inline|hosts|installed|embed|refusing|unproved)\.py)$"
)
ENDED = re.compile(r"^run=ended status=0 .*proved=no$", re.MULTILINE)
TESTS = re.compile(r"^test result: ok\. (\d+) passed; 0 failed", re.MULTILINE)
# Libraries that are neither built nor kept are proved here if that takes fewer minutes of a processor.
MINUTES = 5
SHOWN = 3000


def git(*words, env=None, check=True):
    ran = subprocess.run(["git", *words], cwd=ROOT, env=env, capture_output=True, text=True, check=check)
    return ran.stdout.strip() if ran.returncode == 0 else ""


def state():
    """The tree of all files that git has or would take, as they stand."""
    with tempfile.TemporaryDirectory() as folder:
        index = pathlib.Path(ROOT, git("rev-parse", "--git-path", "index"))
        if index.is_file():
            shutil.copyfile(index, f"{folder}/index")
        env = {**os.environ, "GIT_INDEX_FILE": f"{folder}/index"}
        git("add", "-A", env=env)
        return git("write-tree", env=env)


def note(tree):
    NOTE.parent.mkdir(exist_ok=True)
    NOTE.write_text(json.dumps({"passed": tree}) + "\n")


def base():
    """What the files are compared with, and how to call it."""
    noted = json.loads(NOTE.read_text())["passed"] if NOTE.is_file() else ""
    if noted and git("cat-file", "-t", noted, check=False) == "tree":
        return noted, "the last state that passed"
    left = git("merge-base", "HEAD", "@{upstream}", check=False)
    return left or git("rev-parse", "HEAD"), "the upstream's commit" if left else "HEAD"


def lines_of_crates(text):
    return {line.partition(":")[0].split()[0]: line for line in text.splitlines() if line.split("#")[0].strip()}


class Change:
    """The files that differ from a state, by kind."""

    def __init__(self, since, tree):
        self.since, self.tree = since, tree
        self.files = git("diff", "--name-only", "--no-renames", since, tree).splitlines()
        self.present = [it for it in self.files if (ROOT / it).is_file()]

    def crates(self):
        named = {found[1] for it in self.files if (found := OF_A_CRATE.match(it))}
        old, here = (lines_of_crates(git("show", f"{it}:crates.txt", check=False)) for it in (self.since, self.tree))
        return {it for it in named | {it for it in here if old.get(it) != here[it]} if it in here}

    def of_kind(self, *ends):
        return [it for it in self.present if it.endswith(ends)]

    def is_of_c(self):
        return any(map(OF_C.search, self.files))

    def long_lines(self):
        """The changed lines of scripts that are too long, each with its file."""
        file = None
        for line in git("diff", "-U0", "--no-renames", self.since, self.tree, "--", "*.py").splitlines():
            file = line[6:] if line.startswith("+++ b/") else file
            if line.startswith("+") and not line.startswith("+++") and len(line) > COLUMNS + 1:
                yield file, line[1:]


class Mirror:
    """Copies of the crates in .git, whose libraries are those that the gate keeps on this machine."""

    def __init__(self, kit):
        loader = importlib.machinery.SourceFileLoader("rt", str(kit.folder / "bin" / "rt"))
        self.rt = importlib.util.module_from_spec(importlib.util.spec_from_loader("rt", loader))
        loader.exec_module(self.rt)
        self.rt.Crate.allowed = self.rt.handles_of(str(ROOT))
        self.rt.rtlib.Crate = self.rt.Crate
        self.root = pathlib.Path(git("rev-parse", "--absolute-git-dir")) / "quick"
        self.root.mkdir(exist_ok=True)
        shutil.copyfile(ROOT / "HANDLES", self.root / "HANDLES")

    def copy(self, names):
        """Copies these crates, and lists them alone."""
        lines = lines_of_crates((ROOT / "crates.txt").read_text())
        (self.root / "crates.txt").write_text("".join(f"{lines[it]}\n" for it in names))
        for name in names:
            for part in self.rt.rtlib.PARTS:
                to = self.root / "crates" / name / part
                shutil.rmtree(to, ignore_errors=True)
                if (ROOT / "crates" / name / part).is_dir():
                    shutil.copytree(ROOT / "crates" / name / part, to)
            (self.root / "crates" / name / "out").mkdir(parents=True, exist_ok=True)

    def crate(self, name):
        """The crate's copy where the gate keeps all libraries below it, or None."""
        below = [it.name for it in self.rt.rtlib.Crate(str(ROOT / "crates" / name), str(ROOT), {}).below()]
        self.copy([name, *below])
        crate = self.rt.rtlib.Crate(str(self.root / "crates" / name), str(self.root), {})
        kept = self.rt.Kept([crate, *crate.below()])
        for it in crate.below():
            # (a file of the keep may have a second name here, and nothing may write into that)
            shutil.rmtree(f"{it.folder}/out/rlib", ignore_errors=True)
            if not kept.give(it, False, kept.key(it)):
                return None
            kept.is_built(it)
        return crate

    def check(self, crate, jobs):
        words = crate.words(["--jobs", str(jobs), *["--test"] * crate.has_tests()], keeps=False)
        return [self.rt.rtlib.RATTLE, "check", *words, *self.rt.rtlib.KEPT]


class Quick:
    def __init__(self, change, names):
        self.kit, self.tally, self.change = unproved.Kit(), Tally(), change
        self.cores = len(os.sched_getaffinity(0))
        self.all = {it: self.crate(it) for it in lines_of_crates((ROOT / "crates.txt").read_text())}
        self.names = sorted(names or change.crates(), key=lambda it: len(self.all[it].below()))
        # (its first call sets a handler of signals, which the main thread alone may)
        self.guard = self.kit.rtlib.guarded()
        self.skips = 0

    def crate(self, name):
        return self.kit.rtlib.Crate(str(ROOT / "crates" / name), str(ROOT), {})

    def stands_on(self, name, others):
        return name in others or any(it.name in others for it in self.all[name].below())

    def layout(self, name):
        """What isn't in the layout of rt fmt."""
        with tempfile.TemporaryFile("w+") as said:
            if self.kit.rtlib.fmt(self.all[name].folder, "--check", said, diff=subprocess.DEVNULL) == 0:
                return []
            said.seek(0)
            return [f"run rt fmt in crates/{name}", said.read()[-SHOWN:]]

    def proof(self, mirror, name):
        """The command by which a crate is proved, in a folder, or None."""
        crate = self.all[name]
        jobs = ["--jobs", str(self.cores), *["--test"] * crate.has_tests()]
        if all(it.is_built() for it in crate.below()):
            return ["rt", "check", *jobs], crate.folder
        copy = mirror.crate(name)
        if copy:
            return [*self.guard, *mirror.check(copy, self.cores)], copy.folder
        if sum(minutes_of(it.name) for it in crate.below() if not it.is_built()) < MINUTES:
            return ["rt", "check", *jobs], crate.folder
        return None

    def proved(self, command):
        words, folder = command
        how = {"stdin": subprocess.DEVNULL, "stdout": subprocess.PIPE, "stderr": subprocess.STDOUT, "text": True}
        ran = subprocess.run(words, cwd=folder, errors="replace", **how)
        return [] if ran.returncode == 0 else [f"status {ran.returncode}", ran.stdout[-SHOWN:]]

    def tested(self, name, room):
        crate = self.all[name]
        root = "src/main.rt" if crate.is_program else "src/lib.rt"
        ran = unproved.tried(self.kit, crate, crate.folder, room, "--test", root, seconds=300)
        said = ran.stdout + ran.stderr
        is_well = ran.returncode == 0 and ENDED.search(said) and TESTS.search(said)
        return [] if is_well else [f"status {ran.returncode}", said[-SHOWN:]]

    def library(self, name):
        why, _ = unproved.fault_of(self.kit, name)
        return why

    def c_names(self):
        is_reached = any(self.stands_on(it, self.names) for it in unproved.NAMES)
        return unproved.NAMES if is_reached or self.change.is_of_c() else ()

    def tasks(self, room):
        """What to do beside one another, the longest first: a name for each, and what finds its faults."""
        mirror = Mirror(self.kit) if self.names else None
        for name in reversed(self.names):
            command = self.proof(mirror, name)
            if command:
                yield f"{name}: proof", lambda it=command: self.proved(it)
            else:
                self.skips += 1
                why = f"libraries below it are not built: rt check in crates/{name} proves them first"
                self.tally.skip(f"{name}: proof", why)
        for name in self.c_names():
            yield f"lib{name}.a, unproved", lambda it=name: self.library(it)
        for name, crate in self.all.items():
            if self.stands_on(name, self.names) and crate.has_tests():
                yield f"{name}: rt try --test", lambda it=name: self.tested(it, room)
        for name in self.names:
            yield f"{name}: layout", lambda it=name: self.layout(it)

    def beside(self):
        """The checks of crates, as many at a time as there are processors."""
        with tempfile.TemporaryDirectory() as room, concurrent.futures.ThreadPoolExecutor(self.cores) as pool:
            running = {pool.submit(timed, task): name for name, task in self.tasks(room)}
            for it in concurrent.futures.as_completed(running):
                faults, seconds = it.result()
                self.tally.judge(running[it], faults, f"{seconds:.0f} s")

    def script(self, *words):
        """Counts what a script of tests comes to."""
        ran = subprocess.run([*map(str, words)], cwd=ROOT, stdout=subprocess.PIPE, stderr=subprocess.STDOUT, text=True)
        lines = ran.stdout.strip().splitlines() or [""]
        failed = self.tally.failed
        is_counted = self.tally.add(lines[-1])
        shown = [it for it in lines[:-1] if ran.returncode or it.startswith(("skipped: ", "left out: "))]
        print(*shown, f"{words[0]}: {lines[-1]}", sep="\n", flush=True)
        if not is_counted or ran.returncode and self.tally.failed == failed:
            self.tally.judge(words[0], f"it ended with status {ran.returncode} and {lines[-1]}")

    def scripts(self):
        """Python and the shell."""
        with tempfile.TemporaryDirectory() as room:
            for file in self.change.of_kind(".py"):
                long = [line for of, line in self.change.long_lines() if of == file]
                faults = [f"longer than {COLUMNS} columns: {line}" for line in long]
                try:
                    py_compile.compile(str(ROOT / file), cfile=f"{room}/it", doraise=True)
                except py_compile.PyCompileError as why:
                    faults.append(str(why))
                self.tally.judge(file, faults)
        for file in self.change.of_kind(".sh"):
            ran = subprocess.run(["bash", "-n", ROOT / file], capture_output=True, text=True)
            self.tally.judge(file, ran.stderr or ran.returncode and "bash -n fails")

    def run(self):
        self.script("tests/links.py")
        self.scripts()
        self.beside()
        if self.c_names():
            libraries = {it: unproved.library_of(it) for it in unproved.NAMES}
            self.script("tests/safepoint.py", libraries["safepoint"], libraries["model"])
            self.script("tests/collector.py", libraries["safepoint"])
            self.script("tests/inline.py", libraries["safepoint"])
            self.script("tests/hosts.py", libraries["safepoint"])
            self.script("tests/embed.py", libraries["model"])
        return self.tally.end()


def timed(task):
    begun = time.monotonic()
    faults = task()
    return faults, time.monotonic() - begun


def main(words):
    if words == ["state"]:
        print(state())
        return 0
    if words[:1] == ["note"]:
        note(words[1])
        return 0
    unknown = set(words) - set(lines_of_crates((ROOT / "crates.txt").read_text()))
    if unknown:
        sys.exit(f"quick.py [CRATE ..] | state | note TREE, and no crate is named {' '.join(sorted(unknown))}")
    tree = state()
    since, called = base()
    change = Change(since, tree)
    quick = Quick(change, words)
    print(f"{len(change.files)} files differ from {called}; crates: {' '.join(quick.names) or 'none'}", flush=True)
    status = quick.run()
    if status == 0 and not words and not quick.skips:
        note(tree)
    return status


if __name__ == "__main__":
    sys.exit(main(sys.argv[1:]))
