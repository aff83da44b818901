"""What an install has: which files each crate that is built brings, and where below the prefix each stands."""
import pathlib

from libraries import CRATES, HEADERS, INCLUDE, ROOT, VERSION, WAIT_LIBRARY, WAITS, shared_names

HERE = pathlib.Path(__file__).resolve().parent
WITNESS = ROOT / "witness"
LIBRARIES, PROGRAMS = tuple(HEADERS), ("monitor", "timeline", "confirm")
CRATES_BUILT = (*LIBRARIES, *PROGRAMS)
# In this folder a linker finds the archives alone, and not the shared libraries beside them.
ARCHIVES = "lib/safepoint"
HEADERS_OF_C = ("safepoint.h", "safepoint_wait.h", "safepoint_check.h", "safepoint_record.h", "safepoint.hpp")
# The page for man of each crate; `witness` searches, and `confirm` checks what it finds.
PAGES = {"safepoint": "safepoint.3", "monitor": "monitor.1", "timeline": "timeline.1", "confirm": "witness.1"}
PACKAGES = {
    "safepoint": ("safepoint.pc", "safepoint-shared.pc"),
    "model": ("model.pc", "model-shared.pc"),
}
CMAKE = ("safepointConfig.cmake", "safepointConfigVersion.cmake")
RUNS = ("bin/witness", "share/safepoint/witness/witness")


def archives(crate):
    """The archives that a crate brings."""
    return {"safepoint": ("libsafepoint.a", WAIT_LIBRARY), "model": ("libmodel.a",)}.get(crate, ())


def plain_files(crate):
    """The files that are installed as they are: where to, and from where."""
    if crate == "safepoint":
        yield from ((f"include/{it}", INCLUDE / it) for it in HEADERS_OF_C)
        yield from ((f"share/safepoint/{it.name}", it) for it in sorted(WAITS.glob("*.[ch]")))
        yield "share/safepoint/safepoint-gdb.py", HERE / "safepoint-gdb.py"
    elif crate == "model":
        yield "include/model.h", CRATES / "model" / "include" / "model.h"
    elif crate == "confirm":
        yield "bin/witness", HERE / "witness.sh"
        searching = (WITNESS / "witness", *sorted(WITNESS.glob("*.py")))
        yield from ((f"share/safepoint/witness/{it.name}", it) for it in searching)


def filled_files(crate):
    """The files in which the prefix and the version are filled in: where to, and from where."""
    yield from ((f"lib/pkgconfig/{it}", HERE / f"{it}.in") for it in PACKAGES.get(crate, ()))
    if crate == "safepoint":
        yield from ((f"lib/cmake/safepoint/{it}", HERE / f"{it}.in") for it in CMAKE)
    if crate in PAGES:
        page = HERE / PAGES[crate]
        yield f"share/man/man{page.suffix[1:]}/{page.name}", page


def links(crate):
    """The links that are installed: where each stands, and where it leads from there."""
    yield from ((f"{ARCHIVES}/{it}", f"../{it}") for it in archives(crate))
    if crate in LIBRARIES:
        file, soname, plain = shared_names(crate)
        yield from ((f"lib/{soname}", file), (f"lib/{plain}", soname))


def built_files(crate):
    """The files that are made of what is built."""
    if crate in PROGRAMS:
        yield f"bin/{crate}"
    yield from (f"lib/{it}" for it in archives(crate))
    if crate in LIBRARIES:
        yield f"lib/{shared_names(crate)[0]}"


def targets(crate):
    """All files of a crate, and its links."""
    yield from built_files(crate)
    yield from (to for to, _ in (*filled_files(crate), *plain_files(crate), *links(crate)))


def filled(text, prefix):
    major, minor, _ = VERSION.split(".")
    file, soname, _ = shared_names("safepoint")
    values = {"PREFIX": prefix, "VERSION": VERSION, "MAJOR": major, "MINOR": minor, "SHARED": file, "SONAME": soname}
    for name, value in values.items():
        text = text.replace(f"@{name}@", value)
    return text
