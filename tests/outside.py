"""A built program that tests run from outside. What it writes on standard output and on standard error, and its status,
must be just what the test states."""
import os
import pathlib
import resource
import subprocess

EXAMPLES = pathlib.Path(__file__).resolve().parent.parent / "examples"
SECONDS = 60


class Program:
    """A program, with the tally that counts its tests."""

    def __init__(self, path, tally):
        self.path, self.tally = os.path.abspath(path), tally

    def is_there(self):
        """Whether it can be run. Where it can't, that counts as one failure."""
        is_so = os.access(self.path, os.X_OK)
        if not is_so:
            self.tally.judge(f"{os.path.basename(self.path)}, the program", f"there is no program {self.path}")
        return is_so

    def judge(self, name, found, wanted):
        """Compares what a run wrote on standard output and on standard error, and its status, with what is wanted."""
        parts = zip(("output", "errors", "status"), found, wanted, strict=True)
        faults = [f"{what}: {shown(has)}, and not {shown(wants)}" for what, has, wants in parts if has != wants]
        return self.tally.judge(f"{os.path.basename(self.path)}, {name}", faults)

    def run(self, name, words, output=b"", errors=b"", status=0, *, given=b"", name_of_program=None, **devices):
        """Runs the program with these words. `stdin`, `stdout` and `stderr` put devices in the place of pipes."""
        if "stdin" not in devices:
            devices["input"] = given
        for end in ("stdout", "stderr"):
            devices.setdefault(end, subprocess.PIPE)
        words = [self.path if name_of_program is None else name_of_program, *words]
        try:
            ran = subprocess.run(words, executable=self.path, timeout=SECONDS, **devices)
        except (OSError, subprocess.TimeoutExpired) as why:
            return self.judge(name, (why, None, None), (output, errors, status))
        return self.judge(name, (ran.stdout or b"", ran.stderr or b"", ran.returncode), (output, errors, status))


def shown(value):
    text = repr(value)
    return text if len(text) <= 300 else f"{text[:300]}.. ({len(value)} bytes)"


def closing(number):
    """What closes a device of the program before it starts."""
    return lambda: os.close(number)


def with_memory(size):
    """What lets the program have so many bytes."""
    return lambda: resource.setrlimit(resource.RLIMIT_AS, (size, size))
