"""The toolchain's own module that knows how a crate is checked and built, for the scripts that need its words."""
import importlib.machinery
import importlib.util
import pathlib
import subprocess
import sys

ROOT = pathlib.Path(__file__).resolve().parent.parent


def kit():
    """The folder in which the toolchain stands."""
    page = subprocess.run(["rt", "doc"], capture_output=True, text=True, check=True).stdout.strip()
    return pathlib.Path(page).parent


def allocator():
    """The archive by which a library for C takes memory of the C library."""
    return kit() / "c" / "liblibc_c.a"


def toolchain():
    """That module, and the folder in which the toolchain stands."""
    folder = kit()
    loader = importlib.machinery.SourceFileLoader("rtlib", str(folder / "bin" / "rtlib.py"))
    module = importlib.util.module_from_spec(importlib.util.spec_from_loader("rtlib", loader))
    sys.modules["rtlib"] = module
    sys.dont_write_bytecode = True
    loader.exec_module(module)
    return module, folder


def is_of_the_gate(library):
    """Whether the gate left this library: one that another command of rt built has a stamp beside it."""
    folder = pathlib.Path(library.rlib)
    return (folder / "format").is_file() and not (folder.parent / "stamp").exists()
