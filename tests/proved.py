#!/usr/bin/env python3
"""Whether a built program or library is a proved one of the present state: proved.py note | proved.py CRATE

`rt run` leaves a stamp beside a program that it proved and built. The stamp is made from all that the program is made
from. `rt ci` and `rt lib` leave no stamp. So `note`, after a gate that passed, puts a stamp like it, PROGRAM.proved,
beside each program in crates/*/out. Whoever builds a library for C puts one beside the library. With a crate's name the
status is 0 where one of the two stamps is of the present state, and else 1.
"""
import functools
import sys

from toolchain import ROOT, toolchain


def built(name):
    """What a build of the crate left: its program, or the library that C links. None where there is none."""
    out = ROOT / "crates" / name / "out"
    return next((it for it in (out / name, out / f"lib{name}.a") if it.is_file()), None)


def stamp_of(rtlib, name):
    """What a proved build of the crate in its present state has as its stamp, or nothing where none is built."""
    file = built(name)
    if file is None:
        return None
    if not hasattr(rtlib.Crate.stamp, "cache_info"):
        # (else a crate's stamp is made once for each way that leads to it)
        rtlib.Crate.stamp = functools.cache(rtlib.Crate.stamp)
    return rtlib.Crate(str(ROOT / "crates" / name), str(ROOT), {}).stamp() + rtlib.sum_of(str(file))


def note(rtlib, name):
    file = built(name)
    file.with_name(f"{file.name}.proved").write_text(stamp_of(rtlib, name))


def note_programs(rtlib):
    for program in ROOT.glob("crates/*/out/*"):
        if program.name == program.parent.parent.name and program.is_file():
            note(rtlib, program.name)


def is_proved(rtlib, name):
    file, stamp = built(name), stamp_of(rtlib, name)
    kept = [file.with_name(f"{file.name}.{end}") for end in ("stamp", "proved")] if file else []
    return any(it.is_file() and it.read_text() == stamp for it in kept)


def main(words):
    rtlib, _ = toolchain()
    if words == ["note"]:
        note_programs(rtlib)
        return 0
    return 0 if is_proved(rtlib, words[0]) else 1


if __name__ == "__main__":
    sys.exit(main(sys.argv[1:]))
