#!/usr/bin/env python3
"""Shows that what a stop costs doesn't grow with what it doesn't touch: scale.py [PROGRAM] [--of PAGE] [--plot FILE]

PROGRAM is crates/bench_running/out/bench_running by default; its source describes its kinds. The script prints

- for stops of threads in native code, microseconds for each thread, from 1 to 64 threads;
- for the replies of a handshake, an install and a reclaiming (with the handshake of one thread), nanoseconds behind
  histories of up to a million entries, and for the last two also among up to 1024 codes;
- for handshakes and censuses of one thread, nanoseconds among up to 1024 codes, and over up to 256 codes on the
  thread's stack.

Each figure is the least of the medians of fifteen runs.

With --plot the script writes the same figures into an SVG file of 800 pixels: a panel for each, all from 0, with the
names of its lines below it. With --of the script measures nothing, and reads the figures from the tables that an
earlier run printed, as scale.txt keeps them. Compare only the shapes: the same machine differs by a factor of two from
minute to minute.
"""
import os
import pathlib
import statistics
import subprocess
import sys

from looks import said_once

HERE = pathlib.Path(__file__).resolve().parent
PROGRAM = HERE.parent / "crates/bench_running/out/bench_running"

STOPS = [("handshake", 6), ("census", 7), ("reclaim", 8)]
LATE = [("replies", 20), ("install", 21), ("reclaim", 22)]
AMONG = [("install", 31), ("reclaim", 32), ("handshake", 33), ("census", 34)]
OVER = [("handshake", 41), ("census", 42)]

# What is on each panel: its title, what grows, the unit, and where it is measured.
PANELS = [
    ("stops in native code, for each thread", "threads", "us", STOPS, (1, 2, 4, 8, 16, 32, 64)),
    ("behind a history", "entries", "ns", LATE, (1_000, 10_000, 100_000, 300_000, 990_000)),
    ("among codes", "slots", "ns", AMONG, (2, 16, 64, 256, 1024)),
    ("over codes on the stack", "frames", "ns", OVER, (1, 4, 16, 64, 256)),
]
TURNS = 300
ROUNDS = 15

# A line has its colour on each panel.
COLORS = {"handshake": "#1b6ca8", "census": "#c0504d", "reclaim": "#4f8a3d", "replies": "#7a5ca8", "install": "#b8860b"}


def median(program, *words):
    """The median of the turns that a run prints."""
    said = subprocess.run(
        [str(program), *map(str, words)], check=True, capture_output=True, text=True, timeout=600).stdout
    return statistics.median(map(int, said.split()))


def once(program, panel):
    """The values of each line of a panel, by one run for each."""
    _, grows, _, kinds, places = panel
    if grows == "threads":
        return [[median(program, kind, at, TURNS, 1) / at / 1e3 for at in places] for _, kind in kinds]
    return [[median(program, kind, 1, TURNS, at) for at in places] for _, kind in kinds]


def measured(program, panel):
    """The name and the values of each line of a panel.

    A value is the least of some rounds, because a machine's speed changes from second to second.
    """
    rounds = [once(program, panel) for _ in range(ROUNDS)]
    return [(name, list(map(min, zip(*line)))) for (name, _), line in zip(panel[3], zip(*rounds))]


def kept(page, panel):
    """The same of a table that was printed before."""
    title, _, unit, kinds, places = panel
    rows = pathlib.Path(page).read_text().split(f"{title} ({unit})\n", 1)[1].splitlines()[1 : 1 + len(kinds)]
    return [(row.split()[0], [float(it) for it in row.split()[1 : 1 + len(places)]]) for row in rows]


def table(panel, lines):
    title, grows, unit, _, places = panel
    print(f"{title} ({unit})")
    print(f"{grows:12}" + "".join(f"{at:>10}" for at in places))
    for name, values in lines:
        print(f"{name:12}" + "".join(f"{value:10.2f}" if unit == "us" else f"{value:10.0f}" for value in values))
    print(flush=True)


def text(x, y, said, anchor="middle", size=12, fill="#333"):
    return f'<text x="{x:.0f}" y="{y:.0f}" font-size="{size}" text-anchor="{anchor}" fill="{fill}">{said}</text>'


def round_up(value):
    """The next of 1, 2, 5 times a power of ten."""
    step = 10 ** (len(str(int(value))) - 1) if value >= 1 else 0.1
    while step * 10 < value * 10 and step * 5 < value:
        step *= 2
    return next(step * times for times in (1, 2, 3, 4, 5, 6, 8, 10, 20) if step * times >= value)


def short(number):
    return f"{number // 1000}k" if number >= 10_000 else f"{number:,}"


def drawn(panel, lines, left, top, wide, high):
    """One panel. Its places stand evenly, its values rise from 0, and the names of its lines stand below it."""
    title, grows, unit, _, places = panel
    most = round_up(max(max(values) for _, values in lines) * 1.1)
    across = lambda at: left + 14 + at * (wide - 28) / (len(places) - 1)
    up = lambda value: top + high - value / most * high
    said = [f'<rect x="{left:.0f}" y="{top}" width="{wide:.0f}" height="{high}" fill="#fafafa" stroke="#ccc"/>',
            text(left + wide / 2, top - 24, title, size=13)]
    marks = [most * part / 4 for part in range(5)]
    grid = "".join(f"M{left:.0f},{up(value):.1f}h{wide:.0f}" for value in marks)
    said.append(f'<path d="{grid}" stroke="#e4e4e4"/>')
    said += [text(left - 6, up(value) + 4, f"{value:g}", "end") for value in marks]
    said.append(text(left - 6, top - 8, unit, "end"))
    for at, place in enumerate(places):
        said.append(text(across(at), top + high + 17, short(place)))
    said.append(text(left + wide / 2, top + high + 35, grows))
    x, y = left, top + high + 55
    for name, values in lines:
        color = COLORS[name]
        points = [f"{across(at):.1f},{up(value):.1f}" for at, value in enumerate(values)]
        said.append(f'<polyline points="{" ".join(points)}" fill="none" stroke="{color}" stroke-width="2"/>')
        dots = "".join(f"M{it}h0" for it in points)
        said.append(f'<path d="{dots}" stroke="{color}" stroke-width="6" stroke-linecap="round"/>')
        said.append(f'<path d="M{x:.0f},{y - 4}h12" stroke="{color}" stroke-width="3"/>')
        said.append(text(x + 16, y, name, "start"))
        x += 30 + 7 * len(name)
    return said


def plot(file, found):
    whole, high, gap, across = 800, 190, 46, 2
    wide = (whole - 10 - across * (gap + 10)) / across
    row = high + 112
    tall = row * -(-len(found) // across)
    said = [f'<svg xmlns="http://www.w3.org/2000/svg" width="{whole}" height="{tall}" '
            f'viewBox="0 0 {whole} {tall}" font-family="sans-serif">']
    said.append(f'<rect width="{whole}" height="{tall}" fill="white"/>')
    for at, (panel, lines) in enumerate(found):
        said += drawn(panel, lines, gap + at % across * (wide + gap + 10), 44 + at // across * row, wide, high)
    pathlib.Path(file).write_text(said_once("\n".join([*said, "</svg>"]) + "\n"))


def taken(words, name):
    """The word behind this one, without the two; nothing where it isn't there."""
    if name not in words:
        return None
    at = words.index(name)
    return [words.pop(at), words.pop(at)][1]


def main():
    words = sys.argv[1:]
    file, page = taken(words, "--plot"), taken(words, "--of")
    program = os.path.abspath(words[0] if words else PROGRAM)
    found = []
    for panel in PANELS:
        lines = kept(page, panel) if page else measured(program, panel)
        table(panel, lines)
        found.append((panel, lines))
    if file:
        plot(file, found)


if __name__ == "__main__":
    main()
