"""Counts what a script of tests comes to. The last line of each script is `N passed, N failed, N skipped`.

What can't run on this machine is skipped by name, with the reason. Where STRICT=1 is set, it counts as failed.
"""
import os
import re
import shutil

CLOSING = re.compile(r"(\d+) passed, (\d+) failed(?:, (\d+) skipped)?(?: \(.*\))?")


class Tally:
    def __init__(self):
        self.passed = self.failed = self.skipped = 0
        self.is_strict = os.environ.get("STRICT") == "1"

    def judge(self, name, faults=(), shows=None):
        """Counts one test, and returns whether it passed: it did where there is no fault, a text or some lines.

        What failed is printed.
        """
        faults = [faults] if isinstance(faults, str) else list(faults or ())
        if faults:
            self.failed += 1
            lines = [line for fault in faults for line in str(fault).splitlines() or [""]]
            print(f"FAILED: {name}", *lines, sep="\n  ", flush=True)
            return False
        self.passed += 1
        if shows is not None:
            print(f"{name}: {shows}", flush=True)
        return True

    def skip(self, name, why):
        """Counts one test that can't run here."""
        if self.is_strict:
            self.failed += 1
            print(f"FAILED: {name}: skipped, and STRICT=1 is set: {why}", flush=True)
        else:
            self.skipped += 1
            print(f"skipped: {name}: {why}", flush=True)

    def has(self, tool, *names):
        """Whether a tool is on the path. Where it isn't, the tests of these names are skipped."""
        if shutil.which(tool):
            return True
        for name in names:
            self.skip(name, f"there is no {tool}")
        return False

    def add(self, line):
        """Adds the counts of another script's last line. Returns whether it is one."""
        counts = CLOSING.fullmatch(line.strip())
        if counts:
            self.passed, self.failed = self.passed + int(counts[1]), self.failed + int(counts[2])
            self.skipped += int(counts[3] or 0)
        return counts is not None

    def end(self):
        """Prints the last line, and returns the status: 0 where nothing failed, and something passed or was skipped."""
        print(f"{self.passed} passed, {self.failed} failed, {self.skipped} skipped", flush=True)
        return 1 if self.failed or not self.passed + self.skipped else 0


def c_compiler():
    return os.environ.get("CC", "cc")


def cpp_compiler():
    return os.environ.get("CXX", "c++")
