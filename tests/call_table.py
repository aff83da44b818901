"""Reads the table of calls that safepoint.h has, and says whether an answer is in it."""
import re
import typing

from toolchain import ROOT

HEADER = ROOT / "crates" / "safepoint" / "include" / "safepoint.h"
COLUMNS = ("call", "by", "before", "after", "returns", "refusals")
# Who may make a call, by the word of its row.
MAY = {"any": {"client", "coord.", "thread"}, **{it: {it} for it in ("none", "client", "thread", "coord.")}}
# What a party that mustn't make a call is answered; of sp_make, one that is made.
REFUSED = {"sp_make": "MADE"}


class Row(typing.NamedTuple):
    """A call. It has two states behind it, with what it returns then, where its row goes on in a second line."""

    call: str
    by: str
    before: tuple
    after: tuple
    returns: tuple
    refusals: tuple

    def polls(self):
        return self.returns[0].endswith(", polls")

    def is_from(self, state):
        return state in self.before or "all" in self.before

    def may_refuse(self, name):
        """Whether a refusal of this name is in the row, or is one of those that the table leaves out."""
        general = {"NOT_THIS"} | ({"ILLEGAL"} if self.by == "thread" and "all" not in self.before else set())
        return name in general or name in self.refusals


def cells(line, starts):
    ends = [*starts[1:], len(line)]
    return dict(zip(COLUMNS, (line[begin:end].strip() for begin, end in zip(starts, ends))))


def words(lines, column):
    return tuple(word for it in lines for word in it[column].split() if word != "-")


def row_of(lines):
    first = lines[0]
    filled = {column: tuple(it[column] for it in lines if it[column]) for column in ("after", "returns")}
    return Row(first["call"], first["by"], words(lines, "before"), **filled, refusals=words(lines, "refusals"))


def table(text):
    """The rows of the header's text, each by its call."""
    head = re.search(rf"^ +{' +'.join(COLUMNS)}$", text, re.MULTILINE)
    starts = [head[0].index(f" {it}") + 1 for it in COLUMNS]
    rows = []
    for line in text[head.end():].partition("*/")[0].strip("\n").splitlines():
        it = cells(line, starts)
        if it["call"]:
            rows.append([])
        rows[-1].append(it)
    return {row.call: row for row in map(row_of, rows)}


def names():
    """The name of each refusal, without SP_, by its number."""
    return {-int(number): name for name, number in re.findall(r"\bSP_(\w+) = -(\d+)", HEADER.read_text())}


def fault_by(row, kind, said):
    """What is wrong with an answer to a party of a kind. `said` is a number from 0 on, or a refusal's name."""
    wanted = None if kind in MAY[row.by] else REFUSED.get(row.call, "NOT_THIS")
    if wanted:
        return None if said == wanted else f"it isn't {wanted}"
    is_told = isinstance(said, int) or (said != "NOT_THIS" and row.may_refuse(said))
    return None if is_told else "its row doesn't have it"


def fault_in(row, state, back, told, said, after):
    """What is wrong with an answer to a thread in a state, or with the state behind it."""
    if not row.is_from(state):
        return None if (said, after) == ("ILLEGAL", state) else "it isn't ILLEGAL, or the state changed"
    if not isinstance(said, int):
        return "its row doesn't have that refusal from there"
    if told == "yes" and row.polls():
        return None if said > 0 and after == "poll" else "it doesn't stop"
    which = 1 if told == "served" and len(row.after) > 1 else 0
    wanted = {"same": state, "back": back}.get(row.after[which], row.after[which])
    is_right = {"0": said == 0, "an operation": said > 0}.get(row.returns[which].partition(",")[0], True)
    return None if is_right and after == wanted else f"it isn't {row.returns[which]} and {wanted}"
