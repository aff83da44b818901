"""Reads a log of calls (crates/call_log has the form)."""
import re

from spelled import ANSWERS, CALLS, LOOKS, REFUSALS, SAID

LATEST = 1 << 40
MOST_CALLS = 1 << 20
LONGEST = 65536
STREAMS = 1024
# The greatest places, slots and methods of a system.
SIZES = (64, 1024, 256)
NUMBER = re.compile("0|[1-9][0-9]{0,12}")
LONG_NUMBER = re.compile("[0-9]{13}")
N = f"(?:{NUMBER.pattern})"
LINE = re.compile(f"({N}) ({N}) ({N}|-) (\\S+)((?: {N})*) : (\\S+)((?: {N})*)(?: ;((?: {N} {N} {N} {N})+))?")


class BadLog(Exception):
    """The text isn't a log: the first that is wrong with it."""


class Job:
    """A callback that ran in a call: its operation, the name that it ran for, its reply, and a ticket drawn in it."""
    __slots__ = ("op", "name", "reply", "ticket")

    def __init__(self, op, name, reply, ticket):
        self.op, self.name, self.reply, self.ticket = op, name, reply, ticket


class Call:
    """A line: what was called, what it answered, and the tickets around it.

    A call that hadn't returned has `word` None, and no call comes after it: `after` is above all tickets.
    What the windows say of it is put beside (windows.py).
    """
    __slots__ = ("number", "text", "stream", "index", "before", "after", "call", "args", "word", "values", "jobs",
                 "life", "at", "span", "spans", "drive_spans", "census_spans", "is_refused", "is_sayable", "is_watched",
                 "is_held", "is_told", "is_queue_seen", "is_list_seen", "next_poll", "may_rest")

    def __init__(self, number, text):
        self.number, self.text = number, text


class Log:
    """All calls: by number, and each stream's in its order."""

    def __init__(self, has_jobs, sizes):
        self.has_jobs, self.sizes, self.calls, self.streams = has_jobs, sizes, [], []


def number_of(token):
    """The number that a token spells, or None."""
    return int(token) if NUMBER.fullmatch(token) and int(token) < LATEST else None


def header_of(lines):
    """Whether jobs are recorded, and the sizes."""
    if len(lines) < 2 or lines[0] not in ("witness 1", "witness 1 jobs") or not lines[1].startswith("size "):
        raise BadLog("header")
    sizes = [number_of(token) for token in lines[1].split(" ")[1:]]
    if len(sizes) != 3 or any(size is None or not 1 <= size <= most for size, most in zip(sizes, SIZES)):
        raise BadLog("header")
    return lines[0] == "witness 1 jobs", sizes


def is_within(numbers, bounds):
    return bounds is not None and bounds[0] <= len(numbers) <= bounds[1]


def fault_of(text):
    """What is wrong with a line: its first part that is."""
    front, colon, said = text.partition(" : ")
    head, answer = front.split(" "), said.partition(" ;")[0].split(" ")
    tokens = [*head, "", "", ""]
    numbers, values = [number_of(token) for token in head[4:]], [number_of(token) for token in answer[1:]]
    tests = (("too long", len(text) <= LONGEST),
             ("stream", number_of(tokens[0]) is not None),
             ("before", number_of(tokens[1]) is not None),
             ("after", tokens[2] == "-" or number_of(tokens[2]) is not None),
             ("call", tokens[3] in CALLS),
             ("arguments", None not in numbers and is_within(numbers, CALLS.get(tokens[3]))),
             ("colon", colon),
             ("answer", answer[0] in ANSWERS and (answer[0] == "?") == (tokens[2] == "-")),
             ("values", None not in values and is_within(values, ANSWERS.get(answer[0]))))
    return next((what for what, is_right in tests if not is_right), "jobs")


def call_of(number, text):
    """The call that a line spells; its number counts from 0."""
    found = LINE.fullmatch(text)
    if found is None or len(text) > LONGEST or any(int(it) >= LATEST for it in LONG_NUMBER.findall(text)):
        raise BadLog(f"line {number + 3}: {fault_of(text)}")
    stream, before, after, called, args, word, values, jobs = found.groups()
    call = Call(number, text)
    call.stream, call.before, call.after = int(stream), int(before), LATEST if after == "-" else int(after)
    call.call, call.args, call.values = called, list(map(int, args.split())), list(map(int, values.split()))
    call.word, call.is_refused = None if word == "?" else word, word in REFUSALS
    call.is_sayable = word == "?" or word in SAID.get(called, ()) or call.is_refused and called not in LOOKS
    call.jobs = jobs_of(list(map(int, jobs.split()))) if jobs else ()
    if (not is_within(call.args, CALLS.get(called)) or not is_within(call.values, ANSWERS.get(word)) or
            (after == "-") != (word == "?")):
        raise BadLog(f"line {number + 3}: {fault_of(text)}")
    return call


def jobs_of(numbers):
    return [Job(*numbers[at:at + 4]) for at in range(0, len(numbers), 4)]


def jobs_rise(call):
    """The jobs of a call ran between its tickets, one after the other."""
    first = call.before
    for job in call.jobs:
        if not first <= job.ticket <= call.after:
            return False
        first = job.ticket + 1
    return True


def put_in_stream(streams, call):
    """Puts the call behind its stream's last one, where the tickets of the stream rise.

    Each call begins behind the call before it, and ends behind its own beginning. Its jobs run in between.
    """
    stream = streams.setdefault(call.stream, [])
    last = stream[-1].after if stream else -1
    if call.stream >= STREAMS or call.before <= last or call.after <= call.before or not jobs_rise(call):
        raise BadLog("tickets of a stream don't rise")
    call.index = len(stream)
    stream.append(call)


def read_log(text):
    """The log that a text is. BadLog says what is wrong first."""
    lines = text.split("\n")
    log = Log(*header_of(lines))
    if lines.pop() != "":
        raise BadLog(f"line {len(lines) + 1}: no newline" if len(lines) > 1 else "header")
    if len(lines) - 2 > MOST_CALLS:
        raise BadLog("too many calls")
    log.calls = [call_of(number, line) for number, line in enumerate(lines[2:])]
    streams = {}
    for call in log.calls:
        put_in_stream(streams, call)
    log.streams = list(streams.values())
    for stream, calls in enumerate(log.streams):
        for call in calls:
            call.stream = stream
    return log
