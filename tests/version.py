#!/usr/bin/env python3
"""Whether each place that says the version says that of the file VERSION: version.py

`install/contents.py` fills it into the pages for man and the files of pkg-config and CMake. Headers and
Cargo.toml can't read it: here they are compared with it, and so is the first entry of CHANGELOG.md. A program in C and
one in C++ print what the headers say.
The last line is `N passed, N failed, N skipped`; the status is 0 where none failed.
"""
import pathlib
import re
import subprocess
import sys
import tempfile

from tally import Tally, c_compiler, cpp_compiler

ROOT = pathlib.Path(__file__).resolve().parent.parent
sys.path.insert(0, str(ROOT / "install"))

import contents

CRATES = ROOT / "crates"
HEADERS = {"SP": CRATES / "safepoint" / "include" / "safepoint.h", "MODEL": CRATES / "model" / "include" / "model.h"}
CARGO = {"safepoint": ROOT / "bindings" / "rust", "toy": ROOT / "examples" / "embed" / "rust"}
SECONDS = 60
SAYS = """#include <stdio.h>
#include <model.h>
#include <%s>

#if SP_VERSION_MAJOR * 10000 + SP_VERSION_MINOR * 100 + SP_VERSION_PATCH != %d
#error "the numbers of safepoint.h are of another version"
#endif

#if MODEL_VERSION_MAJOR * 10000 + MODEL_VERSION_MINOR * 100 + MODEL_VERSION_PATCH != %d
#error "the numbers of model.h are of another version"
#endif

int main(void) {
    printf("%%s %%s\\n", SP_VERSION, MODEL_VERSION);
}
"""


def differs(found, wanted):
    return None if found == wanted else f"{found!r}, and wanted is {wanted!r}"


def headers(tally, version):
    """Each header has the text and the three numbers."""
    wanted = dict(zip(("", "_MAJOR", "_MINOR", "_PATCH"), (f'"{version}"', *version.split("."))))
    for name, header in HEADERS.items():
        found = dict(re.findall(rf"^#define {name}_VERSION(_\w+)? (\S+)$", header.read_text(), re.MULTILINE))
        tally.judge(f"the version of {header.name}", differs(found, wanted))


def packages(tally, version):
    """Each package of Rust has the version, in its lock too."""
    for name, folder in CARGO.items():
        package = rf'name = "{name}"\nversion = "([^"]*)"$'
        for file in (folder / "Cargo.toml", folder / "Cargo.lock"):
            found = re.findall(package, file.read_text(), re.MULTILINE)
            tally.judge(f"the version of {file.relative_to(ROOT)}", differs(found, [version]))


def filled(tally, version):
    """In what is installed the version is filled in, and nothing is left to fill."""
    for to, source in (it for crate in contents.CRATES_BUILT for it in contents.filled_files(crate)):
        text = contents.filled(source.read_text(), "/opt/prefix")
        left = re.findall(r"@[A-Z]+@", text)
        tally.judge(f"the version of {to}", differs((version in text, left), (True, [])))


def changes(tally, version):
    page = (ROOT / "CHANGELOG.md").read_text()
    tally.judge("the first entry of CHANGELOG.md", differs(re.findall(r"^## (\S+)", page, re.MULTILINE)[:1], [version]))


def printed(compiler, words, text, name):
    """What a program prints, or why it isn't built."""
    with tempfile.TemporaryDirectory() as folder:
        source, made = pathlib.Path(folder, name), pathlib.Path(folder, "says")
        source.write_text(text)
        includes = [word for header in HEADERS.values() for word in ("-I", header.parent)]
        how = {"capture_output": True, "text": True, "timeout": SECONDS}
        built = subprocess.run([compiler, *words, *includes, source, "-o", made], **how)
        return built.stderr if built.returncode else subprocess.run([made], **how).stdout


def compiled(tally, version):
    """A program sees the version, as text and as numbers that #if can test."""
    major, minor, patch = map(int, version.split("."))
    number = major * 10000 + minor * 100 + patch
    languages = (("says.c", c_compiler(), ["-std=c11"], "safepoint_wait.h"),
                 ("says.cpp", cpp_compiler(), ["-std=c++17"], "safepoint.hpp"))
    for name, compiler, words, header in languages:
        title = f"the version that {header} says"
        if tally.has(compiler, title):
            found = printed(compiler, words, SAYS % (header, number, number), name)
            tally.judge(title, differs(found, f"{version} {version}\n"))


def main():
    tally = Tally()
    version = (ROOT / "VERSION").read_text().removesuffix("\n")
    form = re.fullmatch(r"(?:0|[1-9]\d?)(?:\.(?:0|[1-9]\d?)){2}", version)
    if tally.judge("VERSION is three numbers below 100", None if form else repr(version)):
        for test in (headers, packages, filled, changes, compiled):
            test(tally, version)
    return tally.end()


if __name__ == "__main__":
    sys.exit(main())
