#!/usr/bin/env python3
"""Installs the libraries for C and the programs, or takes them away again: install.py install | uninstall | list

PREFIX is where they stand, /usr/local where it isn't set; DESTDIR is put before it, and stays out of what is written
into the files. What is built of the present state is installed: `make build` proves and builds all, and `make build
PROGRAMS=safepoint` the library for C alone. The rest is left out, and named. Each library has inside it the
toolchain's archive by which it takes memory of the C library. The waits in C are compiled, and all is linked, by $CC or
cc. With SP_USDT=1 the waits have static probes (safepoint_probes.h), for which the compiler needs <sys/sdt.h>. The
version is that of the file VERSION. `list` prints what `install` would put. `uninstall` removes that, and the folders
that an install made. The status is 1 where nothing is built.
"""
import os
import pathlib
import sys
import tempfile

HERE = pathlib.Path(__file__).resolve().parent
sys.path[:0] = [str(HERE), str(HERE.parent / "tests")]

import contents
import libraries
import proved
from libraries import CRATES
from place import NOTE, Place
from toolchain import toolchain

PLAIN, RUNS = 0o644, 0o755
NOTHING = """nothing is built of the present state: `make build` proves and builds all, and
`make build PROGRAMS=safepoint` the library for C alone"""


def built(rtlib):
    """The crates that are built of the present state."""
    return [it for it in contents.CRATES_BUILT if proved.is_proved(rtlib, it)]


def library_files(room, kit, crate):
    """The archives of a library, and the shared library of them."""
    own = libraries.whole_archive(room, crate, CRATES / crate / "out" / f"lib{crate}.a", kit / "c" / "liblibc_c.a")
    waits = [libraries.waits_archive(room)] if crate == "safepoint" else []
    yield from ((f"lib/{it.name}", it, PLAIN) for it in (own, *waits))
    shared = libraries.shared_library(room, crate, *waits, own)
    yield f"lib/{shared.name}", shared, RUNS


def filled_files(room, crate, prefix):
    for to, source in contents.filled_files(crate):
        (room / source.name).write_text(contents.filled(source.read_text(), prefix))
        yield to, room / source.name, PLAIN


def files(room, kit, crate, prefix):
    """All files of a crate: where each goes, from where, and its mode."""
    if crate in contents.LIBRARIES:
        yield from library_files(room, kit, crate)
    else:
        yield f"bin/{crate}", CRATES / crate / "out" / crate, RUNS
    yield from filled_files(room, crate, prefix)
    yield from ((to, source, RUNS if to in contents.RUNS else PLAIN) for to, source in contents.plain_files(crate))


def put(place, kit, crates):
    """Puts all of these crates. What can't be made is found before anything is put."""
    with tempfile.TemporaryDirectory() as folder:
        made = [it for crate in crates for it in files(pathlib.Path(folder), kit, crate, place.prefix)]
        links = [it for crate in crates for it in contents.links(crate)]
        place.begin([it[0] for it in (*made, *links)])
        for to, source, mode in made:
            place.put(source, to, mode)
        for at, leads in links:
            place.link(leads, at)


def install(place):
    rtlib, kit = toolchain()
    crates = built(rtlib)
    if not crates:
        print(NOTHING, file=sys.stderr)
        return 1
    put(place, kit, crates)
    print(f"installed below {place.top}: {' '.join(crates)}")
    lacks = " ".join(it for it in contents.CRATES_BUILT if it not in crates)
    if lacks:
        print(f"left out, since they aren't built: {lacks}. `make build PROGRAMS='{lacks}'` proves and builds them")
    return 0


def uninstall(place):
    place.remove([to for it in contents.CRATES_BUILT for to in contents.targets(it)])
    return 0


def main(words):
    prefix = os.environ.get("PREFIX") or "/usr/local"
    if words not in (["install"], ["uninstall"], ["list"]) or not prefix.startswith("/"):
        print("install.py install | uninstall | list, and PREFIX is a path from the root on", file=sys.stderr)
        return 2
    if words == ["list"]:
        print(*(to for it in built(toolchain()[0]) for to in contents.targets(it)), NOTE, sep="\n")
        return 0
    place = Place(prefix.rstrip("/"), os.environ.get("DESTDIR", ""))
    try:
        return install(place) if words == ["install"] else uninstall(place)
    except libraries.Unlinked as why:
        print(why, file=sys.stderr)
        return 1


if __name__ == "__main__":
    sys.exit(main(sys.argv[1:]))
