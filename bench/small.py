#!/usr/bin/env python3
"""Makes a small form of a picture that `timeline` drew, for a page of 800 pixels: small.py PICTURE > SMALL

The picture is one panel. The script cuts off everything behind the picture's last line. It makes the letters so large
that they are at least 11 pixels high at 800, and keeps only those items of the legend that the picture shows. It puts a
name on a lane behind the lines that would cross the name.
"""
import re
import sys

WIDE = 800
LEAST = 11.2
COLUMNS = 6
ROW = 20
# How far the text of a line leans to the right, of a letter and at its end, for letters of height 1.
LEANS, ENDS = 0.31, 0.9
# How wide a letter of a name is, for one of height 1.
WIDTH = 0.52

LEGEND = re.compile(r"<symbol id='legend'.*?</symbol>\n", re.DOTALL)
ITEM = re.compile(r"<(rect class|use href)='#?(\w+)'[^>]*/><text [^>]*>([^<]*)</text>")
NAMES = re.compile(r"(<text class='label' x=')([\d.]+)(' y='([\d.]+)'>([^<]*)<)")
TIES = re.compile(r"<path class='tie' d='M([\d.]+) ([\d.]+)V([\d.]+)'/>")
LINES = re.compile(r"<text class='line [^>]*translate\(([\d.]+) ([\d.]+)\)[^>]*>(.*?)</text>")
TAGS = re.compile(r"<[^>]*>")


def legend(svg, width):
    """The legend of what the picture shows, in rows."""
    old = LEGEND.search(svg)[0]
    body = svg[svg.index("</defs>") :]
    shown = [it for it in ITEM.findall(old) if re.search(rf"(class|href)='#?{it[1]}['\"]", body)]
    said = ["<symbol id='legend' overflow='visible'>"]
    for at, (kind, name, label) in enumerate(shown):
        x, y = 8 + at % COLUMNS * (width - 16) / COLUMNS, 38 + at // COLUMNS * ROW
        place = (f"x='{x:.0f}' y='{y}' width='14' height='12'" if kind == "rect class" else
                 f"x='{x + 7:.0f}' y='{y + 6}'")
        mark = f"<rect class='{name}' {place}/>" if kind == "rect class" else f"<use href='#{name}' {place}/>"
        said.append(f"{mark}<text x='{x + 20:.0f}' y='{y + 11}'>{label}</text>")
    return svg.replace(old, "\n".join([*said, "</symbol>\n"]))


def beside_ties(svg, size):
    """The names on lanes, each so far to the right that no line crosses it."""
    ties = [(float(x), *sorted((float(a), float(b)))) for x, a, b in TIES.findall(svg)]

    def moved(name):
        x, y = float(name[2]), float(name[4])
        for tie, top, foot in sorted(ties):
            if x < tie < x + len(name[5]) * size * WIDTH and top < y and foot > y - size:
                x = tie + 5
        return f"{name[1]}{x:g}{name[3]}"

    return NAMES.sub(moved, svg)


def small(svg):
    high = int(re.search(r"viewBox='0 0 \d+ (\d+)'", svg)[1])
    texts = [(float(x), float(y), len(TAGS.sub("", text))) for x, y, text in LINES.findall(svg)]
    width = max(x / (1 - (LEANS * letters + ENDS) * LEAST / WIDE) for x, _, letters in texts)
    top, size = min(y for _, y, _ in texts), LEAST * width / WIDE
    high = top + (high - top) * size / 11
    svg = re.sub(
        r"(font(?:-size)?: )([\d.]+)px", lambda it: f"{it[1]}{max(float(it[2]), size):.1f}px",
        beside_ties(legend(svg, width), size))
    shape = f"width='{WIDE}' height='{high * WIDE / width:.0f}' viewBox='0 0 {width:.0f} {high:.0f}'"
    return re.sub(r"width='\d+' height='\d+' viewBox='[^']*'", shape, svg, count=1)


if __name__ == "__main__":
    print(small(open(sys.argv[1]).read()), end="")
