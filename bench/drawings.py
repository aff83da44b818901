#!/usr/bin/env python3
"""Draws two pictures of the pages beside it: drawings.py

architecture.svg shows the crates. stop.svg shows one stop step by step.
"""
import pathlib

from looks import said_once

WIDE = 800
DARK, GREY, PALE, LINE = "#222222", "#d4d4d4", "#f3f3f3", "#444444"
HERE = pathlib.Path(__file__).resolve().parent

ARROWS = (
    '<defs><marker id="full" viewBox="0 0 10 10" refX="10" refY="5" markerWidth="9" markerHeight="9" orient="auto">'
    '<path d="M0,0 L10,5 L0,10 z" fill="#222"/></marker>'
    '<marker id="open" viewBox="0 0 10 10" refX="10" refY="5" markerWidth="9" markerHeight="9" orient="auto">'
    '<path d="M0,0 L10,5 L0,10" fill="none" stroke="#222" stroke-width="1.5"/></marker></defs>'
)


def text(x, y, said, size=12, anchor="middle", fill="#111", weight="normal", style="normal", halo=None):
    behind = f' stroke="{halo}" stroke-width="4" paint-order="stroke"' if halo else ""
    kind = "".join(
        f' font-{name}="{value}"' for name, value in (("weight", weight), ("style", style)) if value != "normal")
    return (f'<text x="{x:g}" y="{y:g}" font-size="{size}" text-anchor="{anchor}" fill="{fill}"{kind}{behind}>'
            f'{said}</text>')


def line(*points, dash=None, end=None, wide=1.2):
    path = " ".join(f"{x:g},{y:g}" for x, y in points)
    more = (f' stroke-dasharray="{dash}"' if dash else "") + (f' marker-end="url(#{end})"' if end else "")
    return f'<polyline points="{path}" fill="none" stroke="{LINE}" stroke-width="{wide}"{more}/>'


def rect(x, y, wide, high, fill="white", stroke=LINE, dash=None, round=0, thick=1.2):
    more = (f' stroke-dasharray="{dash}"' if dash else "") + (f' rx="{round}"' if round else "")
    return (f'<rect x="{x:g}" y="{y:g}" width="{wide:g}" height="{high:g}" fill="{fill}" stroke="{stroke}" '
            f'stroke-width="{thick}"{more}/>')


def hexagon(x, y, wide, high):
    cut = 12
    points = [(x, y + high / 2), (x + cut, y), (x + wide - cut, y),
              (x + wide, y + high / 2), (x + wide - cut, y + high), (x + cut, y + high)]
    path = " ".join(f"{a:g},{b:g}" for a, b in points)
    return f'<polygon points="{path}" fill="{GREY}" stroke="{DARK}" stroke-width="2"/>'


def written(name, high, parts):
    head = (f'<svg xmlns="http://www.w3.org/2000/svg" width="{WIDE}" height="{high}" viewBox="0 0 {WIDE} {high}" '
            f'font-family="DejaVu Sans, Verdana, Arial, sans-serif">')
    (HERE / name).write_text(
        said_once("\n".join([head, ARROWS, rect(0, 0, WIDE, high, stroke="none"), *parts, "</svg>"]) + "\n"))


# The architecture.

HIGH = 38


def named(kind, x, y, wide, name, said=""):
    """A box of a kind, with a name and what it is."""
    shape = {
        "crate": lambda: rect(x, y, wide, HIGH),
        "shared": lambda: hexagon(x, y, wide, HIGH),
        "program": lambda: rect(x, y, wide, HIGH, DARK, DARK, round=19),
        "yours": lambda: rect(x, y, wide, HIGH, dash="5 3", round=19, thick=1.8),
        "base": lambda: rect(x, y, wide, HIGH, PALE),
        "laws": lambda: rect(x, y, wide, HIGH, dash="2 3", thick=1.8),
    }[kind]()
    fill = "white" if kind == "program" else "#111"
    middle = x + wide / 2
    if not said:
        return [shape, text(middle, y + 23, name, 12, fill=fill, weight="bold")]
    return [shape, text(middle, y + 16, name, 12, fill=fill, weight="bold"), text(middle, y + 31, said, 11, fill=fill)]


def architecture():
    row = lambda at: 40 + 54 * at
    foot = lambda at: row(at) + HIGH
    a, b, c, d, e = 16, 150, 284, 436, 614          # where the columns begin
    parts = [text(16, 24, "the core and its lines", 12, "start", weight="bold"),
             text(343, 24, "scripts", 12, weight="bold"),
             text(610, 24, "the running layer", 12, weight="bold")]

    # What stands on what, from above.
    for upper in (0, 1, 2):
        parts.append(line((75, foot(upper)), (75, row(upper + 1))))
    parts.append(line((75, foot(3)), (75, row(6))))
    parts.append(line((b, row(0) + 19), (142, row(0) + 19), (142, row(3) + 12), (134, row(3) + 12)))
    parts += [line((b, row(2) + 19), (142, row(2) + 19)), line((200, foot(2)), (200, row(4)))]
    parts.append(line((c, row(1) + 19), (262, row(1) + 19), (262, row(3) + 27), (134, row(3) + 27)))
    for upper in (0, 1, 2, 3):
        parts.append(line((343, foot(upper)), (343, row(upper + 1))))
    parts.append(line((402, row(2) + 19), (d, row(2) + 19)))
    for x in (519, 697):
        parts += [line((x, foot(0)), (x, row(2))), line((x, foot(2)), (x, row(3)))]
    parts.append(line((780, row(2) + 19), (792, row(2) + 19), (792, row(5) + 19), (780, row(5) + 19)))
    parts += [line((205, foot(4)), (205, row(5))), line((150, row(5) + 19), (110, row(5) + 19), (110, row(6)))]
    parts += [line((608, foot(3)), (608, row(4))), line((608, foot(4)), (608, row(5)))]
    for x in (519, 697):
        parts += [line((x, foot(5)), (x, row(6))), line((x, foot(6)), (x, row(7))),
                  line((x, foot(7)), (x, row(8))), line((x, foot(8)), (x, row(9) + 22))]
    parts.append(line((150, row(6) + 19), (134, row(6) + 19)))
    parts.append(line((284, row(6) + 19), (260, row(6) + 19)))
    parts.append(line((402, row(6) + 19), (d, row(6) + 19)))
    parts.append(line((75, foot(6)), (75, row(9) + 22)))

    parts += named("program", a, row(0), 118, "timeline", "draws a run")
    parts += named("crate", a, row(1), 118, "run_picture")
    parts += named("crate", a, row(2), 118, "run_lanes")
    parts += named("crate", a, row(3), 118, "replay", "lines in and out")
    parts += named("crate", a, row(6), 118, "system", "the core")
    parts += named("program", b, row(0), 110, "model", "libmodel.a, for C")
    parts += named("program", b, row(2), 100, "confirm", "checked orders")
    parts += named("crate", b, row(4), 110, "witness_check", "checks an order")
    parts += named("crate", b, row(5), 110, "call_runs", "on call_log")
    parts += named("crate", b, row(6), 110, "rows", "worked runs")
    parts += named("program", c, row(0), 118, "monitor")
    parts += named("crate", c, row(1), 118, "cli")
    parts += named("crate", c, row(2), 118, "workers", "scripts on threads")
    parts += named("crate", c, row(3), 118, "interp")
    parts += named("crate", c, row(4), 118, "script")
    parts += named("laws", c, row(6), 118, "tie", "joins the two")
    parts += named("yours", d, row(0), 166, "your runtime", "in Rattle")
    parts += named("program", e, row(0), 166, "safepoint", "libsafepoint.a, for C")
    parts += named("crate", d, row(2), 166, "coordinator", "drive, reclaim: it waits")
    parts += named("crate", e, row(2), 166, "parties", "acts that never wait")
    parts += named("crate", d, row(3), 344, "coordinator_core", "what is pending is listed, armed, held, served")
    parts += named("crate", d, row(4), 344, "stopped_threads", "held bodies; arms places")
    parts += named("crate", d, row(5), 344, "thread_list", "Shared, and a Mutator for each thread")
    parts += named("shared", d, row(6), 166, "desk", "one lock")
    parts += named("shared", e, row(6), 166, "berths", "a lock for each place")
    parts += named("crate", d, row(7), 344, "bodies", "a thread's stack and seats, moved as one")
    parts += named("shared", d, row(8), 166, "board", "words of codes")
    parts += named("shared", e, row(8), 166, "poll", "a word for each place")

    # What both stand on, with what else stands on each.
    base = row(9) + 22
    parts.append(rect(8, base, 784, HIGH + 36, thick=1.8))
    parts.append(text(
        400, base + 18,
        "the core and the running layer stand on these; below each name: what stands on it beside system",
        11.5, style="italic"))
    bottom = [(16, 134, "activation_index", "bodies"), (154, 122, "method_table", "desk"),
              (280, 122, "operations", "bodies"), (406, 226, "frames", "board, method_table, operations"),
              (636, 148, "thread_state", "poll")]
    for x, wide, name, users in bottom:
        parts += named("base", x, base + 27, wide, name, users)

    # The legend.
    key = base + HIGH + 52
    keys = [("program", 16, 154, "program, C library"), ("crate", 182, 94, "crate"),
            ("shared", 288, 166, "shared by threads"), ("laws", 470, 130, "laws alone"),
            ("yours", 616, 168, "what embeds it")]
    for kind, x, wide, said in keys:
        parts += named(kind, x, key, wide, said)
    parts.append(text(
        400, key + HIGH + 20, "A line leads from a crate down, or sideways, to one that it stands on.", 12))
    written("architecture.svg", key + HIGH + 34, parts)


# One stop.

COORDINATOR, DESK, BERTH, WORD, THREAD = 96, 266, 416, 566, 716
ACTORS = [(COORDINATOR, "coordinator"), (DESK, "desk"), (BERTH, "berth"), (WORD, "poll word"), (THREAD, "thread")]


def actor(x, name):
    if name in ("desk", "berth"):
        shape = hexagon(x - 52, 12, 104, 28)
    elif name == "poll word":
        shape = f'<ellipse cx="{x}" cy="26" rx="54" ry="14" fill="{GREY}" stroke="{DARK}" stroke-width="2"/>'
    else:
        shape = rect(x - 52, 12, 104, 28, thick=1.6)
    return [shape, text(x, 30, name, weight="bold")]


def badge(x, y, number):
    return [f'<path d="M{x + 9:g},{y:g}h6" stroke="{DARK}" stroke-width="18" stroke-linecap="round"/>',
            text(x + 12, y + 4, number, 11, fill="white", weight="bold")]


def step(start, end, y, number, said, locked, halo):
    """A step of one at another: under that one's lock, or on a word without a lock."""
    gap = 7 if start < end else -7
    x = start + 10 if start < end else end + 22
    parts = badge(x, y - 13, number) if number else []
    parts.append(text(x + (30 if number else 0), y - 9, said, 11.5, "start", halo=halo))
    return parts + [line((start + gap, y), (end - gap, y),
                         dash=None if locked else "6 4", end="full" if locked else "open", wide=1.6)]


def alone(at, top, foot, number, lines, side, halo):
    """What one does itself, with its number, or, without, how it sleeps."""
    parts = [rect(at - 6, top, 12, foot - top, DARK, DARK) if number else
             rect(at - 6, top, 12, foot - top, "white", LINE, dash="2 2")]
    out, anchor = (1, "start") if side == "right" else (-1, "end")
    x, middle = at + 12 * out, (top + foot) / 2
    if number:
        parts += badge(x if side == "right" else x - 24, middle, number)
        x += 30 * out
    first = middle + 4 - 7 * (len(lines) - 1)
    return parts + [
        text(x, first + 14 * row, said, 11.5, anchor, style="normal" if number else "italic", halo=halo)
        for row, said in enumerate(lines)]


def served_by_itself(top):
    said = step(THREAD, WORD, top + 44, "A1", "load n: Stop(n)", False, PALE)
    said += step(COORDINATOR, WORD, top + 44, "", "looks at the word, 250 times at most", False, PALE)
    said += alone(COORDINATOR, top + 60, top + 172, "",
                  ["sleeps at the", "berth until A2,", "at the desk", "until A4"], "right", PALE)
    said += step(THREAD, BERTH, top + 84, "A2", "stop: the body in, and out with the job", True, PALE)
    said += alone(THREAD, top + 100, top + 142, "A3", ["publishes,", "runs the job"], "left", PALE)
    said += step(THREAD, DESK, top + 172, "A4", "Finish, with the reply; wakes who sleeps at the desk", True, PALE)
    said += step(THREAD, WORD, top + 212, "A5", "clear: n to 0", False, PALE)
    return said + step(THREAD, WORD, top + 250, "A6", "load 0: goes on", False, PALE)


def served_by_another(top):
    said = step(COORDINATOR, BERTH, top + 46, "B1", "the body comes out, with the job", True, PALE)
    said += alone(COORDINATOR, top + 60, top + 102, "B2", ["publishes,", "runs the job"], "right", PALE)
    said += step(COORDINATOR, DESK, top + 132, "B3", "Finish with reply", True, PALE)
    said += step(COORDINATOR, WORD, top + 168, "B4", "clear: n to 0", False, PALE)
    said += step(COORDINATOR, BERTH, top + 204, "B5", "the body goes back; wakes who sleeps here", True, PALE)
    said += step(THREAD, BERTH, top + 90, "", "from_native meanwhile: no body here", True, PALE)
    said += alone(THREAD, top + 100, top + 196, "", ["sleeps at", "the berth", "until B5"], "left", PALE)
    said += step(THREAD, BERTH, top + 232, "", "the body comes out", True, PALE)
    return said + step(THREAD, WORD, top + 264, "", "load 0: goes on", False, PALE)


def stop():
    first, second, closing = 166, 446, 768
    panels = [(first, 264, "The thread has its body: it serves itself"),
              (second, 280, "The body is in its berth: the coordinator serves it")]
    parts = [rect(8, top, 784, high, PALE, round=4) for top, high, _ in panels]
    lives = "".join(f"M{x},40V{closing + 12}" for x, _ in ACTORS)
    parts.append(f'<path d="{lives}" stroke="{LINE}" stroke-width="1.2" stroke-dasharray="1 3"/>')
    for x, name in ACTORS:
        parts += actor(x, name)
    for top, _, title in panels:
        parts += [rect(8, top, len(title) * 7.4 + 16, 22, round=4),
                  text(16, top + 15, title, anchor="start", weight="bold")]
    parts += step(COORDINATOR, DESK, 74, "1", "Open; targets, jobs", True, "white")
    parts += step(COORDINATOR, BERTH, 112, "2", "the job goes in, and under this lock", True, "white")
    parts += step(COORDINATOR, WORD, 148, "3", "store n: the place is armed", False, "white")
    parts += served_by_itself(first) + served_by_another(second)
    parts += step(COORDINATOR, DESK, closing, "4", "Close", True, "white")
    key = closing + 34
    parts += [line((16, key), (76, key), end="full", wide=1.6),
              text(84, key + 4, "under the lock of whom it leads to", 11.5, "start")]
    parts += [line((316, key), (376, key), dash="6 4", end="open", wide=1.6),
              text(384, key + 4, "on the word alone, no lock", 11.5, "start")]
    parts += [rect(570, key - 8, 12, 16, DARK, DARK), text(590, key + 4, "works", 11.5, "start"),
              rect(650, key - 8, 12, 16, "white", LINE, dash="2 2"), text(670, key + 4, "sleeps", 11.5, "start")]
    written("stop.svg", key + 22, parts)


if __name__ == "__main__":
    architecture()
    stop()
