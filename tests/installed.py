"""What stands below a prefix after `make install`, for the tests that use it."""
import os
import pathlib
import re
import shlex
import shutil
import subprocess

from tally import Tally

ROOT = pathlib.Path(__file__).resolve().parent.parent
PAGE = ROOT / "docs" / "start" / "EMBEDDING.md"
SECONDS = 300
WARNINGS = ["-O2", "-Wall", "-Wextra", "-Werror", "-Wno-unused-parameter"]
FIRST_STOP = b"operation 1 at place 0\nclosed 1\n"
THREAD_DUMP = b"late: name 2, place 1, which died\nname 1: 3 frames\nname 2: 3 frames\n"
MODEL = r"""#include <stdio.h>
#include <string.h>
#include <model.h>

int main(void) {
    struct model model = {0};
    unsigned char answer[MODEL_ROOM];
    if (model_new(&model, 3, 4, 2)) return 1;
    for (int i = 0; i < 2; i++) {
        ptrdiff_t length = model_line(&model, (const unsigned char *)"start", 5, answer, sizeof answer);
        if (length < 0) return 1;
        printf("%.*s\n", (int)length, (const char *)answer);
    }
    model_free(&model);
}
"""
MODEL_SAYS = b"thread 1 place 0\nthread 2 place 1\n"


class Tests(Tally):
    def holds(self, what, is_right, said):
        return self.judge(what, () if is_right else said)

    def run(self, what, words, wanted=None, **how):
        """Runs a command: its status must be 0, nothing on standard error, and what it prints as wanted, if given."""
        ran = subprocess.run(words, capture_output=True, timeout=SECONDS, **how)
        is_right = ran.returncode == 0 and not ran.stderr and wanted in (None, ran.stdout)
        return self.holds(what, is_right, f"status {ran.returncode}, {ran.stdout[-600:]!r}, {ran.stderr[-600:]!r}")


class Installed:
    """What a checkout put below a prefix, with or without a folder before it."""

    def __init__(self, name, prefix, destdir="", checkout=ROOT):
        self.name, self.prefix, self.destdir, self.checkout = name, prefix, destdir, checkout
        self.top = pathlib.Path(f"{destdir}{prefix}")

    def make(self, target):
        return ["make", "-s", "-C", self.checkout, target, f"PREFIX={self.prefix}", f"DESTDIR={self.destdir}"]

    def listed(self):
        """The files that it says it puts."""
        words = [self.checkout / "install" / "install.py", "list"]
        return sorted(subprocess.run(words, capture_output=True, text=True, check=True).stdout.split())

    def is_named_in(self, page):
        return bool(self.destdir) and self.destdir in page.read_text()

    def files(self):
        return sorted(it for it in self.top.rglob("*") if it.is_symlink() or not it.is_dir())

    def names(self):
        return sorted(str(it.relative_to(self.top)) for it in self.files())

    def flags(self, package):
        """The words by which a compiler finds a package."""
        pages = self.top / "lib" / "pkgconfig"
        if shutil.which("pkg-config") is None:
            return self.read(pages / f"{package}.pc")
        words = ["pkg-config", "--cflags", "--libs", package]
        how = {"capture_output": True, "text": True, "check": True, "env": self.found()}
        return shlex.split(subprocess.run(words, **how).stdout)

    def found(self):
        """The environment in which pkg-config finds what is installed, and nothing else."""
        pages = self.top / "lib" / "pkgconfig"
        return {**os.environ, "PKG_CONFIG_LIBDIR": str(pages), "PKG_CONFIG_SYSROOT_DIR": self.destdir}

    def read(self, page):
        """The same as pkg-config says, for a page whose lines name variables and the two lists."""
        known, found = {}, {}
        for line in page.read_text().splitlines():
            line = re.sub(r"\$\{(\w+)\}", lambda it: known[it[1]], line)
            if is_set := re.fullmatch(r"(\w+)=(.*)", line):
                known[is_set[1]] = is_set[2]
            elif is_list := re.fullmatch(r"(\w+): (.*)", line):
                found[is_list[1]] = is_list[2]
        words = shlex.split(found["Cflags"]) + shlex.split(found["Libs"])
        return [re.sub(r"^-([IL])", rf"-\1{self.destdir}", it) for it in words]


def block(kind, page=PAGE):
    """The first program of a page in this language."""
    return re.search(rf"^```{kind}\n(.*?)^```$", page.read_text(), re.MULTILINE | re.DOTALL)[1]
