"""Makes an SVG picture short: each look of its shapes and texts is said once, as a class."""
import re

SHAPE = re.compile(r"<(rect|text|path|polyline|polygon|ellipse)( [^>]*?)(/?)>")
LOOK = re.compile(
    r' (fill|stroke|stroke-width|stroke-dasharray|stroke-linecap|marker-end|paint-order|'
    r'font-size|font-weight|font-style|text-anchor)="([^"]*)"')


def said_once(svg):
    """The picture with a class for each look, in a style before its first shape."""
    classes = {}

    def shape(match):
        tag, words, close = match.groups()
        look = ";".join(f"{name}:{value}px" if name == "font-size" else f"{name}:{value}"
                        for name, value in LOOK.findall(words))
        name = classes.setdefault(look, f"c{len(classes)}")
        return f'<{tag}{LOOK.sub("", words)} class="{name}"{close}>'

    head, body = svg.split("\n", 1)
    body = SHAPE.sub(shape, body)
    style = "".join(f".{name}{{{look}}}" for look, name in classes.items())
    return f"{head}\n<style>{style}</style>\n{body}"
