#!/usr/bin/env python3
"""Installs into folders of its own, uses what is installed, and takes it away again: install.py

`make install` puts all below a prefix, once straight there and once with DESTDIR before it. There the C program of
docs/start/EMBEDDING.md, one that steps the model, and the C++ of that page are built by what pkg-config says of the
installed `.pc` files, and run; so are the installed programs. That C is built once more with the installed sources of
the waits, so that its calls are noted. The C of the README is linked with tests/stop_one.c, which says what `stop_one`
answers for a thread that runs, for names that no thread has, and behind an older request. The Rust crate runs its tests
over what pkg-config finds. The pages for man are read by groff. `make uninstall` must leave no file and none of the
project's own folders, and must leave a file that is another's. Where there is no pkg-config, this script reads the
`.pc` files itself.
The last line is `N passed, N failed, N skipped`; the status is 0 where none failed.
"""
import os
import pathlib
import re
import shlex
import shutil
import subprocess
import sys
import tempfile

from installed import FIRST_STOP, MODEL, MODEL_SAYS, SECONDS, WARNINGS, Installed, Tests, block
from tally import c_compiler, cpp_compiler

ROOT = pathlib.Path(__file__).resolve().parent.parent
EXAMPLES = ROOT / "examples"
CALLS = ROOT / "tests" / "calls" / "drives.log"
FILLED = (".pc", ".cmake", ".txt", ".1", ".3")
SCOPES = "#include <safepoint.hpp>\n#include <thread>\n\nint main() {\n%s}\n"
# What stop_one answers, and how often the callback ran for the thread that runs.
STOPS = b"""a thread that runs: true, 1
one that is gone: false, 0
a number that no thread had: false, 0
a thread that runs, behind one that is gone: true, 1
one that is gone, behind a thread that runs: false, 1
a thread that runs, behind an older request: true, 2
one that is gone, behind an older request: false, 1
a name twice, which is refused: false, 0
all is closed: true
callbacks for others: 0
"""
# What needs a C compiler: it compiles the installed waits.
PARTS = ("make install", "the installed programs and libraries", "the pages for man", "make uninstall")


class Uses:
    """What is built of an install and run there."""

    def __init__(self, tests, installed, folder):
        self.tests, self.installed, self.folder = tests, installed, folder

    def build(self, name, text, package, says, compiler, *more):
        """Builds a program of this text and runs it: it must print what it says."""
        source, made = self.folder / name, self.folder / f"{name}.out"
        source.write_text(text)
        words = [compiler, *more, *WARNINGS, source, "-o", made, *self.installed.flags(package)]
        if self.tests.run(f"{self.installed.name}: {name} is built", words):
            self.tests.run(f"{self.installed.name}: {name}", [made], says)

    def of_c(self):
        first_stop, waits = block("c first_stop.c"), sorted((self.installed.top / "share" / "safepoint").glob("*.c"))
        notes = ("-std=gnu11", "-DSP_RECORD", *waits)
        self.build("first_stop.c", first_stop, "safepoint", FIRST_STOP, c_compiler(), "-std=c11")
        self.build("attach.c", block("c attach.c"), "safepoint", b"census 1\n", c_compiler(), "-std=c11")
        self.build("noted.c", first_stop, "safepoint", FIRST_STOP, c_compiler(), *notes)
        self.build("model.c", MODEL, "model", MODEL_SAYS, c_compiler(), "-std=c11")
        readme = block("c", ROOT / "README.md")
        self.build("readme.c", readme, "safepoint", STOPS, c_compiler(), "-std=c11", ROOT / "tests" / "stop_one.c")

    def of_cpp(self):
        if self.tests.has(cpp_compiler(), f"{self.installed.name}: scopes.cpp"):
            self.build("scopes.cpp", SCOPES % block("cpp"), "safepoint", b"", cpp_compiler(), "-std=c++17")

    def of_rust(self):
        """The tests of the Rust crate, which links what pkg-config finds."""
        name = f"{self.installed.name}: bindings/rust"
        if self.tests.has("cargo", name) and self.tests.has("pkg-config", name):
            words = ["cargo", "test", "--quiet", "--offline", "--target-dir", self.folder / "target"]
            names = self.installed.found()
            names.pop("SAFEPOINT_ARCHIVES", None)
            self.tests.run(name, words, cwd=ROOT / "bindings" / "rust", env=names)

    def program(self, name, words, given, wanted=None):
        program, name = self.installed.top / "bin" / words[0], f"{self.installed.name}: {name}"
        if program.is_file():
            self.tests.run(name, [program, *words[1:]], wanted, input=given)
        else:
            self.tests.skip(name, f"{words[0]} isn't built")

    def programs(self):
        run, picture = EXAMPLES / "one_publication", EXAMPLES / "handshake_native"
        lines = {it: it.with_suffix(".lines").read_bytes() for it in (run, picture)}
        self.program("monitor", ["monitor", "replay"], lines[run], run.with_suffix(".out").read_bytes())
        self.program("timeline", ["timeline"], lines[picture], picture.with_suffix(".svg").read_bytes())
        self.searches()

    def searches(self):
        name = f"{self.installed.name}: witness, with confirm"
        if not (self.installed.top / "bin" / "confirm").is_file():
            self.tests.skip(name, "confirm isn't built")
            return
        calls, witness = CALLS.read_bytes(), self.installed.top / "bin" / "witness"
        ran = subprocess.run([witness], input=calls, capture_output=True, timeout=SECONDS)
        is_begun = ran.stdout.startswith(calls.splitlines(keepends=True)[1])
        said = f"status {ran.returncode}, {ran.stderr[-600:]!r}"
        is_ordered = ran.returncode == 0 and not ran.stderr and is_begun
        if self.tests.holds(name, is_ordered, said):
            self.program("monitor takes its lines", ["monitor", "replay"], ran.stdout)

    def pages(self):
        pages = sorted(self.installed.top.glob("share/man/*/*"))
        names = [f"{self.installed.name}: {it.name} is a page for man" for it in pages]
        if self.tests.has("groff", *names):
            for name, page in zip(names, pages):
                self.tests.run(name, ["groff", "-man", "-ww", "-z", page], b"")


def whole(tests, installed, folder):
    """An install, all uses, and an uninstall that leaves what is another's."""
    if not tests.run(f"{installed.name}: make install", installed.make("install")):
        return
    found = installed.names()
    tests.holds(f"{installed.name}: the files are those of the list", found == installed.listed(), f"{found}")
    named = [it for it in installed.files() if it.suffix in FILLED and installed.is_named_in(it)]
    tests.holds(f"{installed.name}: no file names DESTDIR", not named, f"{named}")
    uses = Uses(tests, installed, folder)
    for part in (uses.of_c, uses.of_cpp, uses.of_rust, uses.programs, uses.pages):
        part()
    uninstalled(tests, installed)


def uninstalled(tests, installed):
    other = installed.top / "share" / "safepoint" / "another"
    other.touch()
    tests.run(f"{installed.name}: make uninstall", installed.make("uninstall"), b"")
    left = installed.files()
    tests.holds(f"{installed.name}: only what is another's is left", left == [other], f"{left}")
    other.unlink()
    tests.run(f"{installed.name}: make uninstall once more", installed.make("uninstall"), b"")
    left = sorted(installed.top.rglob("*"))
    tests.holds(f"{installed.name}: no folder of its own is left", left == [other.parent.parent], f"{left}")


def installs(tests):
    tests.has("pkg-config", "what pkg-config says of the .pc files, which this script reads itself")
    for name, staged in (("straight", False), ("with DESTDIR", True)):
        with tempfile.TemporaryDirectory() as folder:
            (room := pathlib.Path(folder, "room")).mkdir()
            prefix, destdir = ("/opt/kept", f"{folder}/stage") if staged else (f"{folder}/top", "")
            whole(tests, Installed(name, prefix, destdir), room)


def main():
    tests = Tests()
    if tests.has(c_compiler(), *(f"{name}: {part}" for name in ("straight", "with DESTDIR") for part in PARTS)):
        installs(tests)
    ran = subprocess.run(["make", "-s", "-C", ROOT, "install", "PREFIX=some/where"], capture_output=True)
    is_refused = ran.returncode and not (ROOT / "some").exists()
    tests.holds("a prefix that isn't from the root on is refused", is_refused, f"{ran.stderr!r}")
    return tests.end()


if __name__ == "__main__":
    sys.exit(main())
