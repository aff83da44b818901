#!/usr/bin/env python3
"""Checks that each refusal has one number and one text, wherever they are written: codes.py

| file | what it has |
|---|---|
| `crates/safepoint/src/codes.rt` | the home of the numbers, which is proved against the next file |
| `crates/safepoint/specs/Codes.antt` | the numbers of the contracts |
| `crates/safepoint/include/safepoint.h` | the numbers by the names of C |
| `crates/safepoint/include/safepoint_wait.h` | the numbers of the waits alone, below all others |
| `crates/safepoint/waits/safepoint_text.c` | a text for each name of C |
| `bindings/rust/src/refusal.rs` | the numbers and the texts of the Rust crate |

Then each file is changed at some places, in memory alone: each change must be found.
The last line is `N passed, N failed, N skipped`; the status is 0 where none failed.
"""
import pathlib
import re
import sys
from collections import defaultdict

from tally import Tally

ROOT = pathlib.Path(__file__).resolve().parent.parent
CRATE = "crates/safepoint"
CODE, SPEC = f"{CRATE}/src/codes.rt", f"{CRATE}/specs/Codes.antt"
HEADER, TEXTS, RUST = f"{CRATE}/include/safepoint.h", f"{CRATE}/waits/safepoint_text.c", "bindings/rust/src/refusal.rs"
WAITS = f"{CRATE}/include/safepoint_wait.h"
FILES = CODE, SPEC, HEADER, WAITS, TEXTS, RUST

# Reasons that have a name of their own in the code, and a common one elsewhere.
COMMON = {"SerialsSpent": "Spent", "NotNotEntrant": "StillInUse", "Runs": "Run"}
# What no contract says: `sp_make` alone answers BadSize, and NO_MEMORY is a name in the code for what functions answer.
NOT_STATED = {("", "BadSize"), ("", "NoMemory")}
# The greatest number of the waits.
FIRST_OF_WAITS = -100
# It has some reasons of `fault_code`, and is proved to answer as that.
NOT_COUNTED = "fault_code_of_step"

# What a line with a number has, and the form that it must have then. (-1 is `negsuc 0`.)
OF_CODE = re.compile(r"=> -\d|=> NO_MEMORY|= -\d"), re.compile(r"\s+(?:\w+::)+(\w+)(?:\(_\))? => (?:-(\d+)|NO_MEMORY),")
OF_CONST = re.compile(r"(?:pub\(crate\) )?const (\w+): i64 = -(\d+);")
OF_FUNCTION = re.compile(r"(?:pub\(crate\) )?fn (\w+)\(")
OF_SPEC = re.compile(r"= negsuc "), re.compile(r"(?:(\w+) \(?\w+\.(\w+)(?: \w+\))?|(\w+)_[a-z]+) = negsuc (\d+)")
OF_RUST = re.compile(r"^    \w+ = -"), re.compile(r'    (\w+) = -(\d+), "(.+)";')
OF_TEXTS = re.compile(r"^ +\{SP_"), re.compile(r' +\{SP_(\w+), "(.+)"\},')
OF_HEADER = re.compile(r"\bSP_(\w+) = -(\d+)\b")

# Changes of one place, by which a file says another thing than the others.
PLANTS = (
    (CODE, "PlacesFull => -10,", "PlacesFull => -11,"),
    (CODE, "ServeFault::NotHeld => -24,", "ServeFault::NotHeld => -23,"),
    (CODE, "Late(_) => -36,", "Late(_) => -37,"),
    (CODE, "MADE: i64 = -40;", "MADE: i64 = -43;"),
    (CODE, "        CloseFault::NotDone => -27,\n", ""),
    (SPEC, "PlacesFull = negsuc 9\n", "PlacesFull = negsuc 10\n"),
    (SPEC, "(fault.Late place) = negsuc 35\n", "(fault.Late place) = negsuc 36\n"),
    (SPEC, "made_code = negsuc 39\n", "made_code = negsuc 40\n"),
    (SPEC, "close_code close_fault.NotDone = negsuc 26\n", ""),
    (HEADER, "SP_NOT_HELD = -24", "SP_NOT_HELD = -25"),
    (HEADER, "SP_LATE = -36,", ""),
    (HEADER, "SP_LATE = -36,", "SP_LATE = -36, SP_LATER = -39,"),
    (HEADER, "SP_RUN = -37, SP_AWAITS = -38,", "SP_RUN = -38, SP_AWAITS = -37,"),
    (WAITS, "SP_TIMEOUT = -100", "SP_TIMEOUT = -99"),
    (WAITS, "SP_TIMEOUT = -100", "SP_TIMEOUT = -101"),
    (WAITS, "SP_TIMEOUT = -100", "SP_TIMEOUT = -100, SP_LATER = -100"),
    (TEXTS, "{SP_NOT_HELD,", "{SP_HELD,"),
    (TEXTS, '    {SP_LATE, "a thread may still enter the code, or hasn\'t told that it has"},\n', ""),
    (TEXTS, "{SP_RUN,", "{SP_AWAITS,"),
    (TEXTS, '"the stack is empty"', '""'),
    (TEXTS, '"the stack is empty"', '"the stack isn\'t empty"'),
    (RUST, "NotHeld = -24,", "NotHeld = -25,"),
    (RUST, "Awaits = -38,", "Awaits = -39,"),
    (RUST, '"the stack is empty"', '"the stack is bare"'),
    (RUST, '    EmptyStack = -7, "the stack is empty";\n', ""),
)


def words_of(name):
    """A name of C or of the contracts as the code writes it, as NotHeld for NOT_HELD."""
    return "".join(it.capitalize() for it in name.split("_")) if name.isupper() or name.islower() else name


def read(path, text, forms):
    """What the form finds in each line that has a number, and faults of lines without that form."""
    has_number, form = forms
    lines = [(number, line) for number, line in enumerate(text.splitlines(), 1) if has_number.search(line)]
    matches = [(form.fullmatch(line), number, line) for number, line in lines]
    faults = [f"{path}: line {number} has another form: {line.strip()}" for match, number, line in matches if not match]
    faults += [] if lines else [f"{path}: no number is found"]
    return [match.groups() for match, _, _ in matches if match], faults


def by_name(path, pairs):
    """Of names with numbers or texts, that of each, and faults: a name with two, or two names with one."""
    names, values = defaultdict(set), defaultdict(set)
    for name, value in pairs:
        names[name].add(value)
        values[value].add(name)
    faults = [f"{path}: {name} has {sorted(its)}" for name, its in names.items() if len(its) > 1]
    faults += [f"{path}: {value!r} is of {sorted(its)}" for value, its in values.items() if len(its) > 1]
    return {name: min(its) for name, its in names.items()}, faults


def of_code(text):
    """The number of each function's reasons, of the constants under no function, and faults."""
    consts = {words_of(name): int(number) for name, number in OF_CONST.findall(text)}
    said, faults = {("", name): number for name, number in consts.items()}, []
    for part in re.split(r"^(?=(?:pub\(crate\) )?fn )", OF_CONST.sub("", text), flags=re.M)[1:]:
        if OF_CODE[0].search(part):
            found, more = read(CODE, part, OF_CODE)
            function = OF_FUNCTION.match(part)[1]
            said |= {(function, name): int(number or consts["NoMemory"]) for name, number in found}
            faults += more
    return said, faults


def of_spec(text):
    found, faults = read(SPEC, text, OF_SPEC)
    stated = {(function or "", name or words_of(alone)): 1 + int(number) for function, name, alone, number in found}
    return stated, faults


def home_of(said):
    """The number of each reason, and faults."""
    return by_name(CODE, [(COMMON.get(name, name), number) for (_, name), number in said.items()])


def differences(path, numbers, home):
    """Where a file says another thing of a reason than the home."""
    return [
        f"{path}: {name} is {numbers.get(name, 'not there')}, and in {CODE} {home.get(name, 'not there')}"
        for name in sorted(numbers.keys() | home.keys())
        if numbers.get(name) != home.get(name)
    ]


def faults_of_spec(text, said):
    """The contracts have the reasons of the code, function by function."""
    stated, faults = of_spec(text)
    wanted = {it: number for it, number in said.items() if it not in NOT_STATED and it[0] != NOT_COUNTED}
    return faults + differences(SPEC, stated, wanted)


def faults_of_header(text, home):
    numbers, faults = by_name(HEADER, [(words_of(name), int(number)) for name, number in OF_HEADER.findall(text)])
    return faults + differences(HEADER, numbers, home)


def of_waits(text):
    """The numbers of the waits, and faults: one that `safepoint.h` may give out."""
    numbers, faults = by_name(WAITS, [(words_of(name), int(number)) for name, number in OF_HEADER.findall(text)])
    high = [f"{WAITS}: {name} is above {FIRST_OF_WAITS}" for name, it in numbers.items() if -it > FIRST_OF_WAITS]
    return numbers, faults + high + ([] if numbers else [f"{WAITS}: no number is found"])


def texts_of(text, home):
    """The text of each reason, and faults: a reason with none or two, or one text for two."""
    found, faults = read(TEXTS, text, OF_TEXTS)
    texts, more = by_name(TEXTS, [(words_of(name), words) for name, words in found])
    lacks = [f"{TEXTS}: {it} is in {TEXTS if it in texts else CODE} alone" for it in sorted(texts.keys() ^ home.keys())]
    return texts, faults + more + lacks


def faults_of_rust(text, home, texts):
    found, faults = read(RUST, text, OF_RUST)
    numbers, more = by_name(RUST, [(name, int(number)) for name, number, _ in found])
    unlike = [(name, words) for name, _, words in found if words != texts.get(name)]
    faults += [f"{RUST}: {name}: {words!r}, and in {TEXTS} {texts.get(name)!r}" for name, words in unlike]
    return faults + more + differences(RUST, numbers, home)


def checks(files):
    """Each check with its faults."""
    said, faults = of_code(files[CODE])
    home, more = home_of(said)
    waits, of_waiting = of_waits(files[WAITS])
    all_of_c = home | waits
    texts, of_texts = texts_of(files[TEXTS], all_of_c)
    yield f"{CODE}: the numbers of {len(home)} reasons", faults + more
    yield SPEC, faults_of_spec(files[SPEC], said)
    yield HEADER, faults_of_header(files[HEADER], home)
    yield WAITS, of_waiting
    yield TEXTS, of_texts
    yield RUST, faults_of_rust(files[RUST], all_of_c, texts)


def faults_of(files):
    return {fault for _, faults in checks(files) for fault in faults}


def fault_of_plant(files, path, old, new):
    """Why a change of a file isn't found, or nothing."""
    if old not in files[path]:
        return f"the file doesn't have {old!r}"
    changed = {**files, path: files[path].replace(old, new, 1)}
    return None if faults_of(changed) - faults_of(files) else "no check finds it"


def main():
    tally = Tally()
    files = {path: (ROOT / path).read_text() for path in FILES}
    for name, faults in checks(files):
        tally.judge(name, faults)
    for path, old, new in PLANTS:
        tally.judge(f"{path} with {new!r} for {old!r}", fault_of_plant(files, path, old, new))
    return tally.end()


if __name__ == "__main__":
    sys.exit(main())
