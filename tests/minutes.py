#!/usr/bin/env python3
"""Where the minutes of a processor go: minutes.py watch PID > LOG | minutes.py table LOG .. > bench/MINUTES.md

`watch` looks each second at the processes below the process PID, until SIGTERM comes or that process is over. Then
`watch` writes the time of each crate, a line `CRATE KIND SECONDS` for each kind of check. `table` makes the page of
such logs, with the greatest figure of each kind where there are several logs. `minutes_of` reads that page.
"""
import collections
import os
import pathlib
import signal
import sys
import time

KINDS = {
    "proof": "its proof",
    "tests": "its tests' proof",
    "built": "building",
    "gate": "wrong bodies of the gate",
    "further": "further wrong bodies",
    "run": "running",
}
REST = "all_else"
# A crate whose checks take fewer minutes has no row.
SHOWN = 4.0
PAGE = pathlib.Path(__file__).resolve().parent.parent / "bench" / "MINUTES.md"
HEAD = (
    "# Where the minutes go\n"
    "\n"
    "This page says how long the checks of each crate take, in minutes of a processor. "
    "`tests/minutes.py table LOG .. > bench/MINUTES.md`\n"
    "makes it of logs that `make test` leaves in `out/minutes.log`. Each figure is the greatest of these: "
    "a run takes a check from an earlier one\n"
    "where it is kept. Crates below four minutes aren't shown. "
    "`make build` reads it to say how long it may still take.\n"
)


def words_of(pid):
    return pathlib.Path(f"/proc/{pid}/cmdline").read_bytes().decode(errors="replace").split("\0")


def stat_of(pid):
    """A process's parent, and the seconds of a processor that it has had."""
    fields = pathlib.Path(f"/proc/{pid}/stat").read_text().rpartition(")")[2].split()
    return int(fields[1]), (int(fields[11]) + int(fields[12])) / os.sysconf("SC_CLK_TCK")


def kind_of(pid, words):
    """Of which crate a process is, and what it does for it."""
    if os.path.basename(words[0]) != "rattle" or "--crate-name" not in words:
        return REST, "run"
    name = words[words.index("--crate-name") + 1]
    room = os.path.basename(os.path.realpath(f"/proc/{pid}/cwd"))
    kept = words[words.index("--incremental") + 1] if "--incremental" in words else ""
    if "/edits-" in kept or "/edits-" in os.path.realpath(f"/proc/{pid}/cwd"):
        return name, "further"
    if kept or room.startswith("rt-edit-"):
        return name, "gate"
    if "--test" in words:
        return name, "tests"
    return name, "built" if "--crate-checked" in words else "proof"


def below(root, parents):
    """The processes that a process started, and those that these started."""
    found, more = set(), {root}
    while more:
        found |= more
        more = {pid for pid, parent in parents.items() if parent in more} - found
    return found


def look(root, seen):
    """Notes for each process below the root how much it has had so far."""
    now = {}
    for pid in filter(str.isdigit, os.listdir("/proc")):
        try:
            now[int(pid)] = stat_of(pid)
        except OSError:
            continue
    for pid in below(root, {it: parent for it, (parent, _) in now.items()}) - {root, os.getpid()}:
        try:
            seen[pid] = (
                *(seen[pid][:2] if pid in seen and seen[pid][0] != REST else kind_of(pid, words_of(pid))),
                now[pid][1],
            )
        except (OSError, KeyError):
            continue


def watch(root):
    seen, ended = {}, []
    signal.signal(signal.SIGTERM, lambda *_: ended.append(True))
    begun = time.monotonic()
    while not ended and os.path.exists(f"/proc/{root}"):
        look(root, seen)
        time.sleep(1)
    totals = collections.Counter()
    for crate, kind, seconds in seen.values():
        totals[crate, kind] += seconds
    for (crate, kind), seconds in sorted(totals.items()):
        print(crate, kind, round(seconds))
    print("clock", "run", round(time.monotonic() - begun))


def read(logs):
    """The minutes of each crate and kind, the greatest of the logs; and how long their runs took by the clock."""
    totals, clocks = collections.defaultdict(collections.Counter), []
    for log in logs:
        for line in pathlib.Path(log).read_text().splitlines():
            crate, kind, seconds = line.split()
            minutes = int(seconds) / 60
            if crate == "clock":
                clocks.append(minutes)
            else:
                totals[crate][kind] = max(totals[crate][kind], minutes)
    return totals, clocks


def table(logs):
    totals, clocks = read(logs)
    kinds = [it for it in KINDS if any(totals[crate][it] for crate in totals)]
    rows = sorted((it for it in totals.items() if it[1].total() >= SHOWN), key=lambda it: -it[1].total())
    yield HEAD
    yield (f"In all {sum(it.total() for it in totals.values()):.0f} minutes of a processor. "
           f"The runs took {', '.join(f'{it:.0f}' for it in clocks)} by the clock.\n")
    yield "| crate | " + " | ".join(KINDS[it] for it in kinds) + " | in all |"
    yield "|---|" + "---|" * (len(kinds) + 1)
    for crate, row in rows:
        cells = (f"{row[it]:.1f}" if row[it] >= 0.05 else "" for it in kinds)
        yield f"| {crate.replace(REST, 'all else')} | " + " | ".join(cells) + f" | {row.total():.1f} |"


def minutes_of(crate, kind="proof"):
    """The minutes that checks of a kind take of a crate, by the page; none where it isn't there."""
    column = None
    for line in PAGE.read_text().splitlines() if PAGE.is_file() else ():
        cells = [it.strip() for it in line.strip("|").split("|")]
        if cells[0] == "crate":
            column = cells.index(KINDS[kind]) if KINDS[kind] in cells else None
        elif cells[0] == crate and column:
            return float(cells[column] or 0)
    return 0.0


def main(words):
    if words[0] == "watch":
        watch(int(words[1]))
    else:
        print("\n".join(table(words[1:])))
    return 0


if __name__ == "__main__":
    sys.exit(main(sys.argv[1:]))
