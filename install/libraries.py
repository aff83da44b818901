"""Makes the files of a library that is installed: its archive and its shared library, of what is built.

From outside they show what the headers declare, and nothing else. So two of these libraries link beside
one another, also where a linker takes each archive whole.
"""
import os
import pathlib
import re
import subprocess

ROOT = pathlib.Path(__file__).resolve().parent.parent
CRATES = ROOT / "crates"
INCLUDE, WAITS = CRATES / "safepoint" / "include", CRATES / "safepoint" / "waits"
WAIT_LIBRARY = "libsafepoint_wait.a"
VERSION = (ROOT / "VERSION").read_text().strip()
# The headers whose names a library shows.
HEADERS = {
    "safepoint": (INCLUDE / "safepoint.h", INCLUDE / "safepoint_wait.h"),
    "model": (CRATES / "model" / "include" / "model.h",),
}
NO_FUNCTION = re.compile(r"/\*.*?\*/|^#(?:[^\n]*\\\n)*[^\n]*$", re.DOTALL | re.MULTILINE)
DECLARED = re.compile(r"^(?:(?!static)\w[\w *]*?\b(?=\w+\()|extern struct \w+ (?=\w+;))(\w+)", re.MULTILINE)


class Unlinked(Exception):
    """Why a library isn't made."""


def run(*words, cwd):
    ran = subprocess.run(list(map(str, words)), cwd=cwd, capture_output=True, text=True)
    if ran.returncode:
        raise Unlinked(f"{words[0]} ended with status {ran.returncode}: {ran.stderr.strip()[-2000:]}")


def compiler():
    return os.environ.get("CC", "cc")


def archiver():
    return os.environ.get("AR", "ar")


def declared(*headers):
    """The functions that headers declare, and the words that they share with a host. (What is static is the host's.)"""
    return [name for it in headers for name in DECLARED.findall(NO_FUNCTION.sub("", it.read_text()))]


def whole_archive(room, name, own, allocator):
    """One archive in this folder: all members of its own, with the one by which it takes memory, as one object."""
    made, public = room / f"{name}.o", room / f"{name}.names"
    public.write_text("".join(f"{it}\n" for it in declared(*HEADERS[name])))
    whole = ("-Wl,--whole-archive", own, "-Wl,--no-whole-archive", allocator)
    run(compiler(), "-r", "-nostdlib", "-o", made, *whole, cwd=room)
    run(os.environ.get("OBJCOPY", "objcopy"), f"--keep-global-symbols={public}", made, cwd=room)
    run(archiver(), "rcs", f"lib{name}.a", made, cwd=room)
    return room / f"lib{name}.a"


def waits_archive(room):
    objects, probes = [], ["-DSP_USDT"] if os.environ.get("SP_USDT") == "1" else []
    for source in sorted(WAITS.glob("*.c")):
        objects.append(room / f"{source.stem}.o")
        words = ["-std=gnu11", "-O2", "-fPIC", *probes, "-I", INCLUDE, "-c", source, "-o", objects[-1]]
        run(compiler(), *words, cwd=room)
    run(archiver(), "rcs", WAIT_LIBRARY, *objects, cwd=room)
    return room / WAIT_LIBRARY


def shared_names(name):
    """The name of a shared library, the one that programs ask for, and the one that a linker looks for."""
    plain = f"lib{name}.so"
    return f"{plain}.{VERSION}", f"{plain}.{VERSION.partition('.')[0]}", plain


def version_script(name):
    """What the linker shows of a library. The names of a further version get a node of their own."""
    return f"{name.upper()}_0 {{ global: {' '.join(f'{it};' for it in declared(*HEADERS[name]))} local: *; }};\n"


def shared_library(room, name, *archives):
    """The shared library, of as much of the archives as its functions reach. Its code must not depend on its place."""
    file, soname, _ = shared_names(name)
    script = room / f"{name}.map"
    script.write_text(version_script(name))
    wanted = [f"-Wl,-u,{it}" for it in declared(*HEADERS[name])]
    strict = ("-Wl,-z,defs", "-Wl,-z,text", "-Wl,-z,relro", "-Wl,-z,now")
    named = (f"-Wl,-soname,{soname}", f"-Wl,--version-script={script}")
    run(compiler(), "-shared", "-o", file, *named, *strict, *wanted, *archives, "-lpthread", cwd=room)
    return room / file
