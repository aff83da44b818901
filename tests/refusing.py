"""The library that refuses one growth of memory, or one thread, of a program: its building and its environment."""
import os
import pathlib
import subprocess

from tally import c_compiler

SOURCE = pathlib.Path(__file__).resolve().parent / "refuse.c"


def built_in(folder):
    """The library, built in this folder by the C compiler."""
    library = f"{folder}/refuse.so"
    words = ["-shared", "-fPIC", "-O1", "-o", library, SOURCE, "-ldl", "-lpthread"]
    subprocess.run([c_compiler(), *words], check=True)
    return library


def asking(library, kind, number):
    """The environment in which the library refuses the growth or the thread of this number, from 1 on.

    The kind is `REFUSE_GROWTH` or `REFUSE_THREAD`.
    """
    return {**os.environ, "LD_PRELOAD": library, kind: str(number)}


def growths_of(library, command, folder):
    """How many growths of memory a run of the command has, where none is refused. It must end with status 0."""
    told = pathlib.Path(folder) / "growths"
    never = asking(library, "REFUSE_GROWTH", 1 << 40)
    subprocess.run(command, check=True, stdout=subprocess.DEVNULL, env={**never, "COUNT_GROWTHS": str(told)})
    return int(told.read_text())
