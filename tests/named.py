"""Names that pages and comments put in backticks: each is in the code.

- A type is in the code of the comment's crate, or of one below it. In a page or another comment it may be of any code.
- What is behind a type, as the function in `System::run`, is defined by a crate that defines the type.
- Any other name with `_` in it may be anywhere in the code. It may also name a file or an edit.
- A name in parentheses behind a file is defined in that file.

`tests/foreign_names.txt` lists the names of other projects.
"""
import pathlib
import re

import comments
from paths import ROOT, crate_of

FOREIGN = pathlib.Path("tests/foreign_names.txt")
WORD = re.compile(r"[^\W\d]\w*")
# In a name `..` may stand for words.
NAME = re.compile(r"[^\W\d]\w*_\.\._\w+|[^\W\d]\w*")
TYPE = re.compile(r"[A-Z]\w*[a-z]\w*")
PAIR = re.compile(r"\b([A-Z]\w*)::(\w+)")
TYPES = re.compile(r"\b(?:struct|enum|trait|union|type|class)\s+(\w+)")
FUNCTIONS = re.compile(r"\b(?:fn|def)\s+(\w+)")
# What a definition of a name begins with.
IN_SPECS = r"^(?:(?:pub|abbrev|data|record) )*"
IN_CODE = r"\b(?:const|static|fn|struct|enum|trait|type|ghost|def|class) "


def group_of(file):
    """The crate that a file is of, or the first folder of its path."""
    return crate_of(file).name if crate_of(file) else f"{file.parts[0]}/"


def below(crates):
    """Of each crate those below it, and itself, as this text lists them."""
    rows = re.findall(r"^(\w+)[ \w]*:(.*)$", crates, re.MULTILINE)
    found = {}
    for crate, named in rows:
        found[crate] = {crate}.union(*(found.get(it, {it}) for it in named.split()))
    return found


class Code:
    """The words of the code and what it defines, crate by crate, and its comments, file by file."""

    def __init__(self, files):
        self.words, self.types, self.functions, self.comments = {}, {}, {}, {}
        for file in files:
            self.add(file)
        self.all = set().union(*self.words.values())
        self.below = below((ROOT / "crates.txt").read_text())
        self.foreign, self.cited = foreign(), set()

    def add(self, file):
        group = group_of(file)
        words = self.words.setdefault(group, set())
        words.update(WORD.findall(str(file)))
        if file.suffix in comments.FINDERS:
            code, self.comments[file] = comments.parted(file.suffix, (ROOT / file).read_text())
            words.update(WORD.findall(code))
            if file.suffix != ".antt":
                self.types.setdefault(group, set()).update(TYPES.findall(code))
                self.functions.setdefault(group, set()).update(FUNCTIONS.findall(code))

    def groups(self, file):
        """The crates whose types a comment or a page may name."""
        return self.below.get(group_of(file), self.words) if file.suffix != ".md" else self.words

    def checked(self, unit):
        """Each name of a unit, with its line and its fault."""
        groups = self.groups(unit.file)
        for line, text, _ in unit.spans:
            for name in NAME.findall(text):
                if TYPE.fullmatch(name):
                    yield line, name, None if self.is_foreign(name) or self.has(name, groups) else "no such type"
                elif "_" in name:
                    yield line, name, None if self.is_foreign(name) or self.is_anywhere(name) else "no such name"
            for owner, name in PAIR.findall(text):
                yield line, f"{owner}::{name}", self.wrong_pair(owner, name, groups)

    def is_foreign(self, name):
        if name in self.foreign:
            self.cited.add(name)
        return name in self.foreign

    def has(self, name, groups):
        return any(name in self.words.get(it, ()) for it in groups)

    def is_anywhere(self, name):
        pattern = name.replace("..", r"\w+")
        return name in self.all or (".." in name and any(re.fullmatch(pattern, it) for it in self.all))

    def wrong_pair(self, owner, name, groups):
        """Why a type hasn't this name, or None. Where the type is of the kit, the code uses the name."""
        if self.is_foreign(owner) or self.is_foreign(name):
            return None
        owners = [it for it in groups if owner in self.types.get(it, ())]
        had = self.functions if owners and name[0].islower() else self.words
        return None if any(name in had.get(it, ()) for it in owners or groups) else "the type has no such name"

    def items(self, unit, paths):
        """Each name in parentheses behind a file, with its line and its fault. It may also be a crate's."""
        for line, name, file in paths.items(unit):
            if WORD.fullmatch(name) and name not in self.below:
                yield line, name, wrong_item(name, file)

    def idle(self):
        """Each name of other projects, and its fault, once all units were looked at."""
        for name in self.foreign:
            yield name, "it is in the code" if name in self.all else None if name in self.cited else "nothing names it"


def wrong_item(name, file):
    """Why a file doesn't define a name, or None."""
    code, _ = comments.parted(file.suffix, (ROOT / file).read_text())
    before = IN_SPECS if file.suffix == ".antt" else IN_CODE
    return None if re.search(rf"{before}{name}\b", code, re.MULTILINE) else f"{file} doesn't define it"


def foreign():
    """The names of other projects, each with its project."""
    rows = [line.partition(":") for line in (ROOT / FOREIGN).read_text().splitlines() if not line.startswith("#")]
    return {name: project for project, _, names in rows for name in names.split()}
