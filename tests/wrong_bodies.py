"""The edits of a crate, and the crate's text with some of them in place."""
import collections
import pathlib
import re
import shutil

PARTS = ("src", "specs", "proofs")
HEAD = re.compile(r"(\s*)(?:pub(?:\([a-z]+\))? )?(?:const )?(?:unsafe )?(?:extern \"C\" )?fn (\w+)")
TYPE = re.compile(r"(?m)^(?:pub(?:\([a-z]+\))? )?(?:struct|enum|trait) (\w+)")
IMPL = re.compile(r"impl(?:<.*?>)? (?:(?P<trait>[\w:]+)(?:<.*>)? for )?(?P<type>[&\w:]+)")
CYCLE = re.compile(r"\s*#\[cycle\((\w+)\)\]")

# An edit that tests of the gate catch has such a line.
CAUGHT = re.compile(r"(?m)^caught by: ")

# A function by its path in the crate, as a check prints it, with its file, its first and last line there, the cycle of
# calls that it is in, and whether it is a trait's.
Function = collections.namedtuple("Function", "path file first last cycle is_trait")


class Bad(Exception):
    """An edit that can't be applied."""


def module_of(file):
    return [it for it in pathlib.PurePath(file).with_suffix("").parts[1:] if it not in ("lib", "main", "mod")]


def types_of(crate):
    """The module in which each type of a crate is declared."""
    files = [it.relative_to(crate) for it in crate.glob("src/**/*.rt")]
    return {name: module_of(file) for file in files for name in TYPE.findall((crate / file).read_text())}


def functions_of(file, text, types):
    """The functions of a source file. A method of a type's own stands where the type is declared, and a trait's where
    its impl stands."""
    here, found = module_of(file), []
    lines, block, is_trait = text.split("\n"), here, False
    for at, line in enumerate(lines):
        impl, head = IMPL.match(line), HEAD.match(line)
        if line == "}":
            block, is_trait = here, False
        elif impl:
            name, trait = impl["type"].rpartition("::")[2], (impl["trait"] or "").rpartition("::")[2]
            block, is_trait = [*(here if trait else types.get(name, here)), name + trait], bool(trait)
        elif head:
            end = next(it for it in range(at, len(lines)) if is_end(lines[it], head[1], it == at))
            first = at
            while lines[first - 1].lstrip().startswith("#["):
                first -= 1
            cycle = next((it[1] for it in map(CYCLE.match, lines[first:at]) if it), None)
            found.append(Function("::".join([*block, head[2]]), file, first + 1, end + 1, cycle, is_trait))
    return found


def is_end(line, indent, is_head):
    """Whether a function's text ends here, by the indent with which it begins."""
    if is_head:
        return line.endswith(";") or line.endswith("}") and line.count("{") == line.count("}")
    return line.startswith(indent + "}") or line.startswith(indent + "{") and line.endswith("}")


class Edit:
    """One edit. `functions` must be refused with it: those that it changes, and the one that its line `of:` names where
    it changes what stands in none, which is what `reaches_far` says. `added` are the words that it adds. Where it has a
    line `caught by:`, tests of the gate fail with it, which that line names (`is_caught`)."""

    def __init__(self, path, crate, types):
        self.name, self.is_control = path.name, path.parent.name == "must-pass"
        self.changes, self.functions, self.reaches_far = [], set(), False
        self.added = set()
        self.said, self.is_proved = None, False
        text_of_edit = path.read_text()
        self.is_caught = CAUGHT.search(text_of_edit) is not None
        file = old = None
        for line in text_of_edit.split("\n"):
            word, _, rest = line.partition(": ") if line != "new:" else ("new", "", "")
            if word == "file":
                file, text = rest, (crate / rest).read_text()
                known = functions_of(file, text, types)
            elif word == "old":
                old = rest
            elif word == "new":
                text = self.note(file, text, known, old, rest)
            elif word == "of":
                self.functions |= {it for it in known if it.path == rest}
        if not self.functions:
            raise Bad("it changes no function, and no line 'of:' names one of its file")

    def note(self, file, text, known, old, new):
        """Notes one change, and the function in which it is; what is only imported is in none. Returns the changed
        text."""
        if text.count(old) != 1 or old == new:
            times = text.count(old)
            raise Bad(f"an 'old:' text is in {file} {times} times, and not once, or nothing else stands for it")
        line = text.count("\n", 0, text.index(old)) + 1
        self.changes.append((file, line, old, new))
        self.added |= {*re.findall(r"\w+", new)} - {*re.findall(r"\w+", old)}
        inside = [it for it in known if it.first <= line <= it.last]
        self.functions.update(inside[-1:])
        self.reaches_far |= not inside and not old.startswith("use ")
        return text.replace(old, new)


def cycle_mates(paths, functions):
    """The paths of the functions that are in a cycle of calls with one of these, with which they have one proof."""
    cycles = {it.cycle for it in functions if it.path in paths} - {None}
    return {it.path for it in functions if it.cycle in cycles}


class Trial:
    """An edit as it is tried: in place of what it changes, or, with an ending, in a copy of its one function, whose
    name ends so."""

    def __init__(self, edit, ending=""):
        self.edit, self.ending = edit, ending
        self.paths = {it.path + ending for it in edit.functions}
        self.proofs = self.paths | {f"+{it.cycle}" for it in edit.functions if it.cycle}

    def is_apart(self, others):
        """Whether no proof is of these edits and of another's functions."""
        return not any(it.edit.reaches_far or self.edit.reaches_far or it.proofs & self.proofs for it in others)


class Copies:
    """Which functions can stand in a crate a second time, with their contract and their proof."""

    def __init__(self, crate):
        self.crate, self.proofs = crate, {it: it.read_text() for it in crate.glob("proofs/**/*.antt")}

    def can_be(self, edit):
        """Whether all that the edit changes is one function, and that one is neither a trait's nor in a cycle of calls,
        has no closure with a proof of its own, and has no lemma made for it: no other file speaks of its modules."""
        if len(edit.functions) != 1 or edit.reaches_far:
            return False
        (function,) = edit.functions
        proofs, parts = self.crate / "proofs", function.path.split("::")
        own = proofs.joinpath(*parts)
        named = re.compile(rf"\bproofs\.{re.escape(function.path.replace('::', '.'))}\b")
        is_told = any(named.search(text) for file, text in self.proofs.items() if own not in file.parents)
        has_closures = any(proofs.joinpath(*parts[:at], "fn", *parts[at:]).exists() for at in range(len(parts)))
        is_inside = lambda file, line: file == function.file and function.first <= line <= function.last
        is_whole = all(is_inside(file, line) for file, line, _, _ in edit.changes)
        return is_whole and not (function.is_trait or function.cycle or has_closures or is_told)


def grouped(edits, crate):
    """The edits as trials, in groups of those that can be tried at once: one edit of a function stands in its place,
    others in copies of it. In a copy stands one, too, that calls what another changes, lest they call one another. What
    can't be copied is in a group of its own."""
    copies, groups = Copies(crate), []
    names = {it.path.rpartition("::")[2] for edit in edits for it in edit.functions}
    for edit in sorted(edits, key=lambda it: it.reaches_far):
        trial = Trial(edit)
        group = next((it for it in groups if trial.is_apart(it)), None)
        if groups and copies.can_be(edit) and (group is None or names & edit.added):
            group, trial = groups[0], Trial(edit, f"_wrong{len(groups[0])}")
        if group is None:
            groups.append([trial])
        else:
            group.append(trial)
    return groups


def write(folder, trials, types):
    """Writes wrong bodies into a copy of the crate. Returns the functions of the changed files, by their paths, as they
    stand there then."""
    found = {}
    for file in sorted({file for trial in trials for file, *_ in trial.edit.changes}):
        path = folder / file
        was = path.read_text().split("\n")
        lines = list(was)
        for trial in trials:
            for _, line, old, new in (it for it in trial.edit.changes if it[0] == file and not trial.ending):
                lines[line - 1] = lines[line - 1].replace(old, new)
        added = [copied(trial, was) for trial in trials if trial.ending and trial.edit.changes[0][0] == file]
        for last, body in sorted(added, reverse=True):
            lines[last:last] = body
        path.write_text("\n".join(lines))
        found.update({it.path: it for it in functions_of(file, "\n".join(lines), types)})
    for trial in (it for it in trials if it.ending):
        copy_proof(folder, *trial.edit.functions, trial.ending)
    return found


def copied(trial, lines):
    """A copy of the function with the edit in it: the line after which it stands, and its lines."""
    (function,) = trial.edit.functions
    body = lines[function.first - 1 : function.last]
    for _, line, old, new in trial.edit.changes:
        body[line - function.first] = body[line - function.first].replace(old, new)
    head = next(at for at, line in enumerate(body) if HEAD.match(line))
    body[head] = re.sub(r"\bfn (\w+)", rf"fn \1{trial.ending}", body[head], count=1)
    return function.last, body


def copy_proof(folder, function, ending):
    """Gives a copy of a function its proof, where that is written."""
    own, dotted = folder / "proofs" / function.path.replace("::", "/"), function.path.replace("::", ".")
    if own.is_dir():
        to = own.with_name(own.name + ending)
        shutil.copytree(own, to)
        for file in to.glob("**/*.antt"):
            file.write_text(re.sub(rf"\bproofs\.{re.escape(dotted)}\b", f"proofs.{dotted}{ending}", file.read_text()))
