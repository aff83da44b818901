#!/usr/bin/env python3
"""The colours of a picture, as a grey print keeps them, and as they are seen without red or green: colours.py PICTURE

It prints a table of them; tests/pictures.py fails where two meanings are nearer than the bounds below.

The colour of a bar is that of the rectangle which fills the bar. The bars of operations and codes are striped too.
Lightness is CIE L*, from 0, black, to 100; a grey print keeps the lightness. The script simulates sight without red
(protanopia) and without green (deuteranopia) by the matrices of Machado, Oliveira and Fernandes (2009). The distance of
two colours is their distance in CIE L*a*b*.
"""
import itertools
import re
import sys
import xml.etree.ElementTree as xml

SVG = "{http://www.w3.org/2000/svg}"

# What lies on one row of lanes: two colours of it must be told apart by lightness alone.
ROWS = {
    "places": "new native java vm blocked transition atpoll serving publishing held".split(),
    "operations": "waiting handshake census".split(),
    "codes": "inuse notentrant zombie".split(),
}

# The least difference of lightness between two colours of one row, and the least distance between two colours in every
# sight. The stripes distinguish a striped bar from a plain one.
LEAST_LIGHTNESS = 8.0
LEAST_DISTANCE = 10.0

SIGHTS = {
    "red and green seen": ((1, 0, 0), (0, 1, 0), (0, 0, 1)),
    "without red": ((.152286, 1.052583, -.204868), (.114503, .786281, .099216), (-.003882, -.048116, 1.051998)),
    "without green": ((.367322, .860646, -.227968), (.280085, .672501, .047413), (-.011820, .042940, .968881)),
}


def colours_of(picture):
    """The colour of each class of bars, of a picture's style and patterns."""
    root = xml.fromstring(picture)
    fills = dict(re.findall(r"rect\.(\w+) \{ fill: (#[0-9a-f]+|url\(#[\w-]+\))", root.findtext(f"{SVG}style")))
    patterns = {it.get("id"): it.find(f"{SVG}rect").get("fill") for it in root.iter(f"{SVG}pattern")}
    return {name: (patterns[fill[5:-1]] if fill.startswith("url") else whole(fill), fill.startswith("url"))
            for name, fill in fills.items()}


def whole(colour):
    """Six digits, of three or six."""
    return colour if len(colour) == 7 else "#" + "".join(2 * it for it in colour[1:])


def linear(colour):
    """Red, green and blue as light, from 0 to 1."""
    parts = [int(colour[i:i + 2], 16) / 255 for i in (1, 3, 5)]
    return [it / 12.92 if it <= .04045 else ((it + .055) / 1.055) ** 2.4 for it in parts]


def lab(light):
    """L*, a* and b* of a light, by the white D65."""
    r, g, b = light
    xyz = ((.4124 * r + .3576 * g + .1805 * b) / .9505,
           .2126 * r + .7152 * g + .0722 * b,
           (.0193 * r + .1192 * g + .9505 * b) / 1.089)
    x, y, z = (it ** (1 / 3) if it > 216 / 24389 else (it * 24389 / 27 + 16) / 116 for it in xyz)
    return 116 * y - 16, 500 * (x - y), 200 * (y - z)


def seen(colour, matrix):
    """A colour as a sight has it."""
    light = linear(colour)
    return lab([min(1, max(0, sum(a * b for a, b in zip(row, light)))) for row in matrix])


def lightness(colour):
    return lab(linear(colour))[0]


def distance(a, b):
    """The least distance of two colours in all sights."""
    return min(sum((x - y) ** 2 for x, y in zip(seen(a, it), seen(b, it))) ** .5 for it in SIGHTS.values())


def too_near(colours):
    """Colours of two meanings that are too near, each with how near."""
    near = []
    for a, b in itertools.combinations(sorted(colours), 2):
        (one, striped), (other, other_striped) = colours[a], colours[b]
        apart = abs(lightness(one) - lightness(other))
        if any(a in row and b in row for row in ROWS.values()) and apart < LEAST_LIGHTNESS:
            near.append(f"{a} and {b}: {apart:.1f} of lightness")
        if striped == other_striped and distance(one, other) < LEAST_DISTANCE:
            near.append(f"{a} and {b}: {distance(one, other):.1f} in colour")
    return near


def words_of(picture):
    """The words of each class of bars, of a picture's legend."""
    legend = list(next(it for it in xml.fromstring(picture).iter(f"{SVG}symbol") if it.get("id") == "legend"))
    return {bar.get("class"): words.text for bar, words in zip(legend, legend[1:]) if bar.tag == f"{SVG}rect"}


def figures(colours, words):
    """A table: each colour's lightness, and what is nearest to it by lightness and by colour."""
    lines = ["| bar | colour | lightness | nearest of its row by lightness | nearest of its kind by colour |",
             "|---|---|---|---|---|"]
    for name, (colour, striped) in colours.items():
        row = next(it for it in ROWS.values() if name in it)
        grey = min((abs(lightness(colour) - lightness(colours[it][0])), it) for it in row if it != name)
        near = min((distance(colour, to), it) for it, (to, other) in colours.items() if it != name and other == striped)
        lines.append(f"| {words[name]} | `{colour}` | {lightness(colour):.0f} | {words[grey[1]]}, {grey[0]:.1f} | "
                     f"{words[near[1]]}, {near[0]:.0f} |")
    return lines


if __name__ == "__main__":
    with open(sys.argv[1], "rb") as drawn:
        svg = drawn.read()
    print("\n".join(figures(colours_of(svg), words_of(svg))))
