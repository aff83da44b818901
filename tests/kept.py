"""Keeps what the wrong bodies of a crate came to, for the next run over the same text.

A crate's verdicts are kept if each of its edits came to what it must. They hold for one text: of the crate, of all
crates below it, of the crate's further edits, of the scripts that try them, and of the program `rattle`. The last
verdicts of each crate are kept, in $XDG_CACHE_HOME/meqzhuly or ~/.cache/meqzhuly. KEPT=no tries all anew.
"""
import hashlib
import json
import os
import pathlib

from toolchain import ROOT
from wrong_bodies import PARTS

SCRIPTS = ("edits.py", "wrong_bodies.py", "kept.py")


def place(crate):
    cache = os.environ.get("XDG_CACHE_HOME") or pathlib.Path.home() / ".cache"
    return pathlib.Path(cache, "meqzhuly", f"wrong-bodies-{crate.name}.json")


def text_of(rtlib, crate, folders):
    """A sum of all that the verdicts rest on, the edits in these folders among them."""
    crates = [*crate.below(), crate]
    parts = [pathlib.Path(it.folder, part) for it in crates for part in PARTS]
    parts += [pathlib.Path(crate.folder, folder) for folder in folders]
    files = sorted(it for part in parts for it in part.rglob("*") if it.is_file())
    uses = [f"{it.name} uses {[below.name for below in it.deps]} {it.of_kit}" for it in crates]
    sums = [f"{name_of(it)} {hashlib.sha256(it.read_bytes()).hexdigest()}" for it in [*files, *tools(rtlib)]]
    return hashlib.sha256("\n".join([*uses, *sums]).encode()).hexdigest()


def tools(rtlib):
    return [pathlib.Path(rtlib.RATTLE), *(ROOT / "tests" / it for it in SCRIPTS)]


def name_of(file):
    return file.relative_to(ROOT) if file.is_relative_to(ROOT) else file


def kept(crate, text):
    """The verdicts that are kept of this text, or None."""
    try:
        found = json.loads(place(crate).read_text())
    except (OSError, ValueError):
        return None
    is_of_it = found["text"] == text and os.environ.get("KEPT") != "no"
    return [tuple(it) for it in found["verdicts"]] if is_of_it else None


def keep(crate, text, verdicts):
    """Keeps verdicts, each an edit's name, whether it came to what it must, and what to say."""
    if all(is_well for _, is_well, _ in verdicts):
        file = place(crate)
        file.parent.mkdir(parents=True, exist_ok=True)
        new = file.with_suffix(f".{os.getpid()}")
        new.write_text(json.dumps({"text": text, "verdicts": verdicts}))
        new.replace(file)
