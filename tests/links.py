#!/usr/bin/env python3
"""Checks the links of all pages, and what pages and comments put in backticks: links.py

- Each link and picture of a Markdown page that isn't of the net leads to a file or folder of the repository, and a
  link to a heading leads to one that its page has. Each path `docs/..` that a script, the Makefile or crates.txt names
  is there.
- In pages and comments each path in backticks leads somewhere (`paths.py`), and each name in backticks is in the code
  (`named.py`).

The last line counts what was looked at; the status is 0 where nothing failed.
"""
import pathlib
import re
import subprocess
import sys

import comments
import named
import paths
from tally import Tally

ROOT = pathlib.Path(__file__).resolve().parent.parent
LINK = re.compile(r"!?\[[^\]\n]*\]\(([^()\s]+(?:\([^()\s]*\))?)\)")
NAMED = re.compile(r"\bdocs/[\w./-]+\.(?:md|svg|py)\b")
CODE = re.compile(r"^```.*?^```$", re.MULTILINE | re.DOTALL)


def tracked(*patterns):
    words = ["git", "ls-files", "-co", "--exclude-standard", *patterns]
    said = subprocess.run(words, cwd=ROOT, capture_output=True, text=True, check=True)
    return sorted(it for it in map(pathlib.Path, said.stdout.splitlines()) if (ROOT / it).is_file())


def slug(heading):
    """The name by which a link finds a heading, as GitHub and others make it."""
    text = re.sub(r"\[([^\]]*)\]\([^)]*\)", r"\1", heading).replace("`", "").replace("*", "")
    return re.sub(r"[^\w\- ]", "", text.strip().lower()).replace(" ", "-")


def headings(page):
    found = {}
    for line in CODE.sub("", page.read_text()).splitlines():
        match = re.match(r"#+ (.*)", line)
        if match:
            name = slug(match[1])
            found[name] = found.get(name, -1) + 1
            if found[name]:
                found[f"{name}-{found[name]}"] = 0
    return found


def wrong_link(page, link):
    """Why a link of a page leads nowhere, or nothing."""
    path, _, anchor = link.partition("#")
    to = (page.parent / path).resolve() if path else page
    if not to.exists():
        return "no such file"
    if ROOT not in (to, *to.parents):
        return "outside of the repository"
    if anchor and (to.suffix != ".md" or anchor not in headings(to)):
        return "no such heading"
    return None


def links():
    """Each link of a page, and each path `docs/..` of a script, with its fault."""
    for page in tracked("*.md"):
        for link in LINK.findall(CODE.sub("", (ROOT / page).read_text())):
            if "://" not in link and not link.startswith("mailto:"):
                yield f"{page}: {link}", wrong_link(ROOT / page, link)
    for file in tracked("Makefile", "crates.txt", "tests", "bench", ".ci"):
        try:
            text = (ROOT / file).read_text()
        except UnicodeDecodeError:
            continue
        for name in NAMED.findall(text):
            yield f"{file}: {name}", None if (ROOT / name).exists() else "no such file"


def texts(files, code):
    """Each page and each comment: its file, its first line and its text."""
    for file in files:
        if file.suffix == ".md":
            yield file, 1, (ROOT / file).read_text()
        for line, text in code.comments.get(file, ()):
            yield file, line, text


def seen(file, first, text, code, places):
    """Each path and name in backticks of a page or a comment, with its line and its fault."""
    written = paths.written_by(text) if file.suffix == ".md" else ()
    for unit in paths.units(file, first, text):
        yield from [*places.checked(unit, written), *code.checked(unit), *code.items(unit, places)]


def backticks():
    """Each path and name in backticks, and each name of other projects, with its fault."""
    files = tracked()
    code, places = named.Code(files), paths.Paths(files)
    for file, first, text in texts(files, code):
        for line, name, why in seen(file, first, text, code, places):
            yield f"{file}:{line}: {name}", why
    for name, why in code.idle():
        yield f"{named.FOREIGN}: {name}", why


# A comment with a path and a type that are nowhere, beside text that only looks like a comment, in each kind of file.
WRONG = "`no/such.rt` and `NoSuchType`"
PLANTS = {
    **dict.fromkeys((".rt", ".rs", ".cpp", ".hpp", ".java"), f'let a = "// `NoText`"; // {WRONG}\n'),
    **dict.fromkeys((".c", ".h"), f'char *a = "/* `NoText` */"; /* {WRONG} */\n'),
    ".antt": f'a = codes "-- `NoText`" -- {WRONG}\n',
    ".py": f'a = "# `NoText`"  # {WRONG}\n',
    ".md": f"```\n`NoText`\n```\n\nA page with {WRONG}.\n",
}


def plants():
    """Each kind of file, and its fault where the check sees anything but the wrong path and the wrong type."""
    files = tracked("crates.txt")
    code, places = named.Code(files), paths.Paths(files)
    for suffix, text in PLANTS.items():
        file = pathlib.Path(f"tests/planted{suffix}")
        said = [(1, text)] if suffix == ".md" else comments.parted(suffix, text)[1]
        wrong = [name for first, it in said for _, name, why in seen(file, first, it, code, places) if why]
        name = f"a wrong path and a wrong type in a file {suffix}"
        yield name, None if wrong == ["no/such.rt", "NoSuchType"] else f"seen: {wrong}"


def main():
    tally = Tally()
    for part in (links, backticks, plants):
        before = tally.passed
        for name, why in part():
            tally.judge(name, why)
        if tally.passed == before:
            tally.judge(part.__name__, "nothing was looked at")
    return tally.end()


if __name__ == "__main__":
    sys.exit(main())
