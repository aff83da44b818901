"""The lives of threads: which calls a thread made from its start to its exit, and where holders had it."""
from bisect import bisect_left, bisect_right

from calls import LATEST

# Calls of a thread, which name its place first.
OF_THREAD = frozenset((
    "call", "ret", "edge", "tovm", "fromvm", "tonative", "fromnative", "block", "unblock", "publish", "stop", "exit"))
POLLS = frozenset(("ret", "edge", "fromvm", "fromnative", "unblock"))
# After these the thread is where a coordinator may hold it, where they answered so.
GIVES = frozenset(("tonative", "block"))
TAKES = frozenset(("fromnative", "unblock", "stop", "start", "exit"))
# Turns are inside of these.
TURNS = frozenset(("stop", "start", "exit"))


class Life:
    """A thread's calls in the order of its program.

    `at` is the number of these calls that are over. `jobs` says in which of the calls an operation's job ran. `rests`
    are the times in which the thread may be held (safe_ends).
    """
    __slots__ = ("name", "place", "calls", "at", "jobs", "spans", "rests")

    def __init__(self, name, place):
        self.name, self.place, self.calls, self.at = name, place, [], 0
        self.jobs, self.spans, self.rests = {}, [], ()


class Span:
    """A hold that was accepted, up to its release.

    The hold is of the stream. It lasts up to the stream's call `last`, or up to the end of a job of a drive, the
    `ran`-th job of that call. The hold begins `before` one ticket, and ends `after` another. `ops` are the operations
    that were done meanwhile. `name` is the thread's name where a job shows it. `ends` are the calls of the thread's
    life, rising, that may end the time in which the thread was held.
    """
    __slots__ = ("stream", "last", "ran", "place", "before", "after", "ops", "name", "life", "ends")

    def __init__(self, stream, index, before, place):
        self.stream, self.last, self.ran, self.place = stream, index, None, place
        self.before, self.after, self.ops, self.name, self.life, self.ends = before, 0, [], None, None, ()

    def reaches(self, call):
        """The call was made while the thread was held."""
        self.last, self.after = call.index, call.before
        self.ops.extend(job.op for job in call.jobs)
        for job in call.jobs:
            self.name = job.name
        if call.call == "operate" and call.word == "census":
            self.ops.append(call.values[0])


def lives_of(log):
    """All lives by place, the oldest first; each call of a thread knows its own."""
    found = {}
    for call in log.calls:
        call.life, call.at, call.spans = None, 0, ()
        if call.call == "start" and call.word == "thread":
            call.life = Life(*call.values)
            found.setdefault(call.values[1], []).append((call.after, call.life))
    for lives in found.values():
        lives.sort(key=lambda it: it[0])
    for call in log.calls:
        if call.call in OF_THREAD:
            lives = found.get(call.args[0], ())
            # The latest that had started when the call began.
            at = bisect_left(lives, call.before, key=lambda it: it[0]) - 1
            call.life = lives[at][1] if at >= 0 else None
        if call.life:
            call.life.calls.append(call)
    for lives in found.values():
        for _, life in lives:
            number_calls(life)
    return {place: [life for _, life in lives] for place, lives in found.items()}


def number_calls(life):
    life.calls.sort(key=lambda call: call.before)
    for at, call in enumerate(life.calls):
        call.at = at
        for job in call.jobs:
            life.jobs[job.op] = at
    life.rests = [(at, begins, ends) for at, begins, ends in safe_ends(life) if begins is not None]


def least_poll(call):
    """The number that the last poll of the call answered, 0 where it went on; above all where it has none."""
    if call.is_refused:
        return LATEST
    if call.call in POLLS:
        return call.values[0] if call.values else 0
    return 0 if call.call in TURNS else LATEST


def safe_ends(life):
    """Each call that ends a time in which the thread may be held, with two tickets.

    They are the earliest ticket of the time's beginning and the latest ticket of its end. Both rise.
    """
    begins = None
    for at, call in enumerate(life.calls):
        if call.is_refused:
            continue
        if call.call in TAKES:
            yield at, call.before if call.call in ("start", "exit") else begins, call.after
        begins = call.before
    if begins is not None and (life.calls[-1].call in GIVES or life.calls[-1].word == "stop"):
        yield len(life.calls), begins, LATEST


def may_end(span, life, at):
    """Whether this span may end at the call.

    Jobs of a thread run by rising number, and a poll behind a job doesn't answer the job's number.
    """
    if not span.ops:
        return True
    least, most = min(span.ops), max(span.ops)
    if any(op < least and own > at or op > most and own < at for op, own in life.jobs.items()):
        return False
    call = life.calls[at] if at < len(life.calls) else None
    return not call or call.call not in ("fromnative", "unblock") or least_poll(call) not in span.ops


def put_span(span, lives):
    """Notes the calls at which the span may end, in the life that has one."""
    for life in lives:
        if span.name is not None and life.name != span.name:
            continue
        first = bisect_right(life.rests, span.after, key=lambda rest: rest[2])
        last = bisect_left(life.rests, span.before, key=lambda rest: rest[1])
        ends = tuple(at for at, _, _ in life.rests[first:last] if may_end(span, life, at))
        if ends:
            span.life, span.ends = life, ends
            life.spans.append(span)
            return
