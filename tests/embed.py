#!/usr/bin/env python3
"""Builds and runs the examples that embed the model: embed.py LIBMODEL

In `examples/embed` a toy runtime in C and one in Rust are stepped beside the model, each once as it is, where all
answers are the same, and once `careless`, where the first that differs must be the one that is stated in its folder.
The one in C, which gives a line again where memory was refused, is also run with each of its first growths of memory
refused in turn, and must print the same. So is `tests/model.c`, which makes each call with each of its faults. The
programs in C are built by $CC or cc, the one in Rust by cargo; without one of them its tests are skipped.
The last line is `N passed, N failed, N skipped`; the status is 0 where none failed.
"""
import os
import pathlib
import subprocess
import sys
import tempfile

import refusing
from tally import Tally, c_compiler
from toolchain import allocator

TESTS = pathlib.Path(__file__).resolve().parent
EXAMPLES = TESTS.parent / "examples" / "embed"
SECONDS = 120
BUILD_SECONDS = 600
GROWTHS = 100
# How a toy runs, with the status that it ends with and the page that has what it prints.
RUNS = {"as it is": ([], 0, "toy.out"), "careless": (["careless"], 1, "careless.out")}
NAMES = {it: [f"examples/embed/{it}, {run}" for run in RUNS] for it in ("c", "rust")}
REFUSED = [f"{it}, with growths refused" for it in ("examples/embed/c", "tests/model.c")]


def built_c(source, archives, folder):
    program = folder / source.stem
    words = [c_compiler(), "-std=c11", "-O2", "-Wall", "-Wextra", "-Werror", "-o", program, source, *archives]
    subprocess.run(words, check=True, timeout=BUILD_SECONDS)
    return program


def build_c(archives, folder):
    return built_c(EXAMPLES / "c" / "toy.c", archives, folder)


def build_rust(archives, folder):
    words = ["cargo", "build", "--quiet", "--release", "--offline", "--target-dir", folder / "target"]
    names = {"MODEL_ARCHIVES": " ".join(map(str, archives))}
    subprocess.run(words, check=True, timeout=BUILD_SECONDS, cwd=EXAMPLES / "rust", env={**os.environ, **names})
    return folder / "target" / "release" / "toy"


def outcome(ran):
    return ran.stdout, ran.stderr, ran.returncode


def judge(tally, language, program):
    for name, (words, status, page) in zip(NAMES[language], RUNS.values()):
        ran = subprocess.run([program, *words], capture_output=True, timeout=SECONDS)
        wanted = (EXAMPLES / language / page).read_bytes(), b"", status
        tally.judge(name, () if outcome(ran) == wanted else f"{outcome(ran)}, and not {wanted}")


def refused(program, wanted, library):
    """What is wrong where one growth after the other is refused: the program must print the same."""
    growths = refusing.growths_of(library, [str(program)], program.parent)
    if not growths:
        return ["it has no growth that could be refused"]
    for growth in range(1, min(growths, GROWTHS) + 1):
        env = refusing.asking(library, "REFUSE_GROWTH", growth)
        ran = subprocess.run([program], capture_output=True, timeout=SECONDS, env=env)
        if outcome(ran) != (wanted, b"", 0):
            return [f"growth {growth}: {outcome(ran)}"]
    return []


def in_c(tally, archives, folder):
    toy, calls = build_c(archives, folder), built_c(TESTS / "model.c", archives, folder)
    judge(tally, "c", toy)
    library = refusing.built_in(folder)
    tally.judge(REFUSED[0], refused(toy, (EXAMPLES / "c" / "toy.out").read_bytes(), library))
    tally.judge(REFUSED[1], refused(calls, b"ok\n", library))


def in_rust(tally, archives, folder):
    judge(tally, "rust", build_rust(archives, folder))


def main(words):
    if len(words) != 1:
        sys.exit("embed.py LIBMODEL")
    archives, tally = [pathlib.Path(words[0]).resolve(), allocator()], Tally()
    for language, compiler, part, names in (
        ("c", c_compiler(), in_c, NAMES["c"] + REFUSED),
        ("rust", "cargo", in_rust, NAMES["rust"]),
    ):
        if not tally.has(compiler, *names):
            continue
        with tempfile.TemporaryDirectory() as folder:
            try:
                part(tally, archives, pathlib.Path(folder))
            except (OSError, subprocess.SubprocessError) as why:
                tally.judge(f"examples/embed/{language}", str(why))
    return tally.end()


if __name__ == "__main__":
    sys.exit(main(sys.argv[1:]))
