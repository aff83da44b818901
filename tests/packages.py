#!/usr/bin/env python3
"""Tests what is installed as a package: packages.py

| what | how |
|---|---|
| an install where the library for C alone is built, and where nothing is | in a copy of the checkout |
| it leaves nothing behind it, and leaves a folder that was there | the same |
| the shared libraries | the functions that they show, their names, programs that run over them |
| both libraries in one program | as archives, as archives taken whole, as shared libraries |
| find_package of CMake | both targets, and versions that are refused |
| -DSP_CHECK | over what is installed |

It takes what crates/safepoint/out and crates/model/out have of the present state.
The last line is `N passed, N failed, N skipped`; the status is 0 where none failed.
"""
import os
import pathlib
import shutil
import subprocess
import sys
import tempfile

from installed import FIRST_STOP, SECONDS, WARNINGS, Installed, Tests, block
from tally import c_compiler
from toolchain import ROOT

sys.path.insert(0, str(ROOT / "install"))

import contents
from libraries import shared_names

UNCOPIED = shutil.ignore_patterns(".git", "out", "target", "__pycache__")
LIBRARIES = contents.LIBRARIES
# It calls both libraries.
BOTH = r"""#include <stdio.h>
#include <model.h>
#include <safepoint_wait.h>

int main(void) {
    struct model model = {0};
    struct sp_party party = {0};
    unsigned char answer[MODEL_ROOM];
    if (model_new(&model, 3, 4, 2) || sp_make(&party, 3, 4, 2)) return 1;
    ptrdiff_t length = model_line(&model, (const unsigned char *)"start", 5, answer, sizeof answer);
    printf("%.*s, and %s\n", (int)length, (const char *)answer, sp_text(sp_open(&party)));
    sp_free(&party);
    model_free(&model);
}
"""
BOTH_SAY = b"thread 1 place 0, and no request waits\n"
CMAKE = """cmake_minimum_required(VERSION 3.16)
project(first_stop C)
find_package(safepoint ${WANTED} REQUIRED)
add_executable(archives first_stop.c)
target_link_libraries(archives safepoint::safepoint)
add_executable(shared first_stop.c)
target_link_libraries(shared safepoint::shared)
"""
REFUSED_VERSIONS = ("0.1", "0.3", "1.0")


def said(*words, **how):
    return subprocess.run(words, capture_output=True, text=True, timeout=SECONDS, **how)


def copied(folder, *crates):
    """A copy of the checkout, in which these crates are built."""
    copy = folder / "checkout"
    shutil.copytree(ROOT, copy, ignore=UNCOPIED)
    for it in crates:
        out = copy / "crates" / it / "out"
        out.mkdir()
        for file in (ROOT / "crates" / it / "out").glob(f"lib{it}.a*"):
            shutil.copy(file, out)
    return copy


def is_of_safepoint(name):
    return name == "share/safepoint/installed.txt" or name in contents.targets("safepoint")


def alone(tests, folder):
    """Where the library for C alone is built, that is installed, and nothing else."""
    copy = copied(folder, "safepoint")
    installed = Installed("alone", f"{folder}/top", checkout=copy)
    ran = said(*installed.make("install"))
    is_told = ran.returncode == 0 and not ran.stderr and ": safepoint\nleft out" in ran.stdout
    if not tests.holds("alone: make install says what it left out", is_told, f"{ran}"):
        return
    found = installed.names()
    tests.holds("alone: the files are those of the list", found == installed.listed(), f"{found}")
    tests.holds("alone: all are of the library", all(map(is_of_safepoint, found)), f"{found}")
    tests.run("alone: make uninstall", installed.make("uninstall"), b"")
    tests.holds("alone: no file and no folder is left", not installed.top.exists(), f"{list(installed.top.rglob('*'))}")
    (installed.top / "lib").mkdir(parents=True)
    tests.run("alone: make install into a folder", installed.make("install"))
    tests.run("alone: make uninstall from it", installed.make("uninstall"), b"")
    left = sorted(installed.top.rglob("*"))
    tests.holds("alone: the folder that was there is left", left == [installed.top / "lib"], f"{left}")


def nothing(tests, folder):
    """Where nothing is built, nothing is installed."""
    installed = Installed("nothing", f"{folder}/top", checkout=copied(folder))
    ran = said(*installed.make("install"))
    is_refused = ran.returncode != 0 and "nothing is built" in ran.stderr and not installed.top.exists()
    tests.holds("nothing: make install refuses", is_refused, f"{ran}")


class Uses:
    """What is built of an install, and run there."""

    def __init__(self, tests, installed, folder):
        self.tests, self.installed, self.folder = tests, installed, folder
        self.archives = [installed.top / "lib" / it for name in LIBRARIES for it in contents.archives(name)]

    def build(self, name, text, says, *flags):
        """Builds a program of this text and runs it, where it finds the shared libraries: it prints what it says."""
        source, made = self.folder / f"{name.replace(' ', '_')}.c", self.folder / f"{name.replace(' ', '_')}.out"
        source.write_text(text)
        words = [c_compiler(), "-std=c11", *WARNINGS, source, "-o", made, *flags]
        if self.tests.run(f"{name} is built", words):
            env = {**os.environ, "LD_LIBRARY_PATH": f"{self.installed.top}/lib"}
            self.tests.run(name, [made], says, env=env)

    def shown(self, name):
        """The functions that a shared library shows are those that its archives have for a host."""
        file, soname, _ = shared_names(name)
        shared = self.installed.top / "lib" / file
        shows = symbols("-D", shared) - {f"{name.upper()}_0"}
        has = symbols("-g", *(it for it in self.archives if it.name in contents.archives(name)))
        wanted = {it for it in has if not it.startswith(("sp_checked_", "sp_record", "sp_listed", "sp_waiting"))}
        self.tests.holds(f"{file} shows its functions alone", shows == wanted != set(), f"{sorted(shows ^ wanted)}")
        dynamic = said("readelf", "-d", shared).stdout
        self.tests.holds(f"{file} is {soname}", f"[{soname}]" in dynamic and "TEXTREL" not in dynamic, dynamic)

    def shared(self):
        for name in LIBRARIES:
            self.shown(name)
        flags = self.installed.flags
        self.build("a first stop over the shared library", block("c first_stop.c"), FIRST_STOP,
                   *flags("safepoint-shared"))
        self.build("both as shared libraries", BOTH, BOTH_SAY, *flags("model-shared"), *flags("safepoint-shared"))

    def both(self):
        flags, whole = self.installed.flags, ("-Wl,--whole-archive", *self.archives, "-Wl,--no-whole-archive")
        self.build("both as archives", BOTH, BOTH_SAY, *flags("model"), *flags("safepoint"))
        self.build("both as archives the other way round", BOTH, BOTH_SAY, *flags("safepoint"), *flags("model"))
        self.build("both as whole archives", BOTH, BOTH_SAY, "-I", self.installed.top / "include", *whole, "-lpthread")

    def checked(self):
        sources = sorted((self.installed.top / "share" / "safepoint").glob("*.c"))
        flags, own = ("-DSP_CHECK", *self.installed.flags("safepoint")), ("-std=gnu11", *sources)
        for name, more in (("a checked host", ()), ("a checked host that builds the waits", own)):
            self.build(name, block("c first_stop.c"), FIRST_STOP, *more, *flags)

    def cmake(self):
        if not self.tests.has("cmake", "find_package of CMake"):
            return
        source = self.folder / "cmake"
        source.mkdir()
        (source / "CMakeLists.txt").write_text(CMAKE)
        (source / "first_stop.c").write_text(block("c first_stop.c"))
        version, _, _ = (ROOT / "VERSION").read_text().strip().rpartition(".")
        ran = self.configured(source, version)
        if self.tests.holds(f"CMake finds safepoint {version}", ran.returncode == 0, f"{ran}"):
            self.tests.run("CMake builds both programs", ["cmake", "--build", source / version])
            for name in ("archives", "shared"):
                self.tests.run(f"a first stop by CMake: {name}", [source / version / name], FIRST_STOP)
        for other in REFUSED_VERSIONS:
            ran = self.configured(source, other)
            is_refused = ran.returncode != 0 and f'requested version "{other}"' in ran.stderr
            self.tests.holds(f"CMake finds no safepoint {other}", is_refused, f"{ran}")

    def configured(self, source, version):
        given = {"WANTED": version, "CMAKE_C_COMPILER": c_compiler(), "CMAKE_PREFIX_PATH": self.installed.top}
        words = ["cmake", "-S", source, "-B", source / version]
        return said(*words, *(f"-D{name}={value}" for name, value in given.items()))


def symbols(kind, *files):
    """The names that files define for others."""
    ran = said("nm", kind, "--defined-only", "--format=posix", *files)
    return {line.split()[0].partition("@")[0] for line in ran.stdout.splitlines() if len(line.split()) > 2}


def uses(tests, folder):
    installed = Installed("packages", f"{folder}/top")
    if tests.run("make install", installed.make("install")):
        it = Uses(tests, installed, folder)
        for part in (it.shared, it.both, it.checked, it.cmake):
            part()


def main():
    tests = Tests()
    if tests.has(c_compiler(), "an install of the library for C alone", "what is installed as a package"):
        for part in (alone, nothing, uses):
            with tempfile.TemporaryDirectory() as folder:
                part(tests, pathlib.Path(folder))
    return tests.end()


if __name__ == "__main__":
    sys.exit(main())
