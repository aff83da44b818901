"""Paths that pages and comments put in backticks: each leads to a file or folder of the repository.

A path begins
- at the root, at the folder of its page or file, at `crates`, or, in a crate, at the crate's folder;
- in a row whose first cell is a crate, and in the rows below it without a first cell, at that crate's folder, or at its
  `src` or `specs`;
- at the path before it in the same paragraph, item or row: at its folder, at its crate's folder, or at `specs` of that
  crate.

OUTSIDE has the paths that lead out of the repository. A page may also name a file that one of its commands writes.
"""
import os.path
import pathlib
import re
import typing

ROOT = pathlib.Path(__file__).resolve().parent.parent
FENCED = re.compile(r"^[ \t]*```.*?^[ \t]*```[ \t]*$", re.MULTILINE | re.DOTALL)
BEGINS = re.compile(r"\s*(?:\||#|[-*] |\d+\. )")
SPAN = re.compile(r"(?<!`)(`+)(?!`)(.+?)(?<!`)\1(?!`)|\]\(([A-Z]\w*::\w+)\)", re.DOTALL)
ENDING = "(?:rt|antt|edit|py|md|c|h|hpp|cpp|rs|java|sh|svg|txt|lines|log|out|json|run|answers|html)"
PATH = re.compile(r"[\w.*/-]*\w/[\w.*/-]*|/\w[\w./-]*|[\w*-][\w.*-]*\." + ENDING)
# Paths that lead out of the repository, and why each does.
OUTSIDE = {
    "made by a build": re.compile(r"(?:crates/\w+/)?out/[\w.*-]+"),
    "a device": re.compile(r"/dev/full"),
    "a folder that `make install` makes": re.compile(r"(?:share|lib)/safepoint|share/safepoint/installed\.txt"),
    "a library of the toolchain": re.compile(r"c/liblibc_c\.a"),
    "any name": re.compile(r"NAME\.\w+"),
}
# A file that a host in C or C++ includes or compiles is named without its folder.
HOST = [pathlib.Path(it) for it in ("crates/safepoint/include", "crates/safepoint/waits", "crates/model/include")]


class Span(typing.NamedTuple):
    """What is in backticks, or a link to a function: its line, its text, and the gap between it and the span before."""

    line: int
    text: str
    gap: str


class Unit:
    """A paragraph, an item or a row: its file, the crate of its row, and its spans."""

    def __init__(self, file, line, text, crate=None):
        self.file, self.crate, self.spans, at = file, crate, [], 0
        self.line = line + len(text) - len(text.lstrip("\n"))
        self.is_open = "`" in SPAN.sub("", text)
        for match in SPAN.finditer(text):
            shown = " ".join((match[2] or match[3]).split())
            self.spans.append(Span(line + text.count("\n", 0, match.start()), shown, text[at:match.start()]))
            at = match.end()


def units(file, first, text):
    """The units of a page, or of a comment that begins at this line. Fenced blocks are left out."""
    lines = FENCED.sub(lambda block: "\n" * block[0].count("\n"), text).split("\n")
    begins = [at for at, line in enumerate(lines) if at and (not line.strip() or BEGINS.match(line))]
    crate = None
    for begin, end in zip([0, *begins], [*begins, len(lines)]):
        text = "\n".join(lines[begin:end])
        crate = crate_of_row(text, crate)
        if "`" in text:
            yield Unit(file, first + begin, text, crate)


def crate_of_row(text, above):
    """The crate of a row: its first cell, or that of the row above where the cell is empty."""
    if not text.startswith("|"):
        return None
    cell = text.split("|")[1].strip()
    match = re.fullmatch(r"`(\w+)`", cell)
    return above if not cell else match and match[1]


def crate_of(path):
    """The folder of the crate that a path is in, or None."""
    return pathlib.Path(*path.parts[:2]) if len(path.parts) > 1 and path.parts[0] == "crates" else None


class Paths:
    """The files and folders of the repository."""

    def __init__(self, files):
        self.files = set(files)
        self.all = self.files.union(*(file.parents for file in files))

    def bases(self, unit, before, path):
        """Where this path of a unit may begin, behind that path."""
        yield from [pathlib.Path(), unit.file.parent, pathlib.Path("crates")]
        if crate_of(unit.file):
            yield crate_of(unit.file)
        if unit.crate:
            yield from (pathlib.Path("crates", unit.crate, folder) for folder in ("", "src", "specs"))
        if before:
            yield before.parent if before in self.files else before
        if before and crate_of(before):
            yield from [crate_of(before), crate_of(before) / "specs"]
        if re.fullmatch(r"\w+\.(?:h|hpp|c)", path):
            yield from HOST

    def find(self, unit, before, path):
        """Where a path leads, or None."""
        for base in self.bases(unit, before, path):
            to = pathlib.Path(os.path.normpath(base / path))
            if to in self.all or ("*" in path and any(it.match(str(to)) for it in self.all)):
                return to
        return None

    def found(self, unit):
        """Each path of a unit, with its span and where it leads."""
        before = None
        for span in unit.spans:
            for path in paths_in(span.text):
                to = self.find(unit, before, path)
                yield span, path, to
                before = to or before

    def checked(self, unit, written=()):
        """Each path of a unit, its line and its fault. `written` has what commands of the page write."""
        for span, path, to in self.found(unit):
            is_there = to or path in written or self.leads_out(path)
            yield span.line, path, None if is_there else "no such file"
        if unit.is_open:
            yield unit.line, "a backtick", "it opens and doesn't close"

    def leads_out(self, path):
        """Whether a path leads out of the repository. What a build makes is in a folder that is there."""
        above, is_made, _ = path.partition("out/")
        is_one = any(it.fullmatch(path) for it in OUTSIDE.values())
        return is_one and (not is_made or pathlib.Path(above) in self.all)

    def items(self, unit):
        """Each name in parentheses behind a file, as in `frames/src/lib.rt` (`LAST`), with its line and the file."""
        to = {span: to for span, _, to in self.found(unit)}
        file, follows = None, None
        for span in unit.spans:
            if span in to:
                file, follows = to[span], " ("
            elif file in self.files and span.gap == follows:
                yield span.line, span.text, file
                follows = ", "
            else:
                file = None


def paths_in(span):
    """The paths of a span. A file without a folder that a command has beside other words is the reader's own."""
    words = span.split()
    paths = [word.partition("#")[0] for word in words]
    return [path for path in paths if PATH.fullmatch(path) and ("/" in path or len(words) == 1)]


def written_by(text):
    """The files that the commands of a page write."""
    return set(re.findall(r"> ([\w.-]+)", text))
