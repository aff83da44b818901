"""The state of a search: the world, the position of each stream in its calls, and the events that were made.

`known` has what the log shows before the search.

What a stream may do next is a verdict and steps. A step is a method and its arguments. `Search.apply` calls the method
with the stream and the stream's call.
EAGER: the one step can come before all that other streams may do first, so the search makes it at once.
CHOICE: each of the steps may be next, or none yet.
DEAD: the call can't go on, whatever other streams do.
"""
from core import Core
from windows import Windows

EAGER, CHOICE, DEAD = 2, 1, 0
WAIT, NEVER = (CHOICE, ()), (DEAD, ())

# The state of a stream: the number of its calls that are over; its position in its call, 0 before the first event; the
# number of jobs of the call that ran; whether the thread's turn had a job; the number of operations that the call
# closed.
POS, STAGE, RAN, SERVED, CLOSED = range(5)


def word_of(said):
    """The word by which a log tells a refusal."""
    words = said.split(" ")
    return words[2] if said == "refused Illegal Vacant" else words[1]


class Run:
    def __init__(self, log):
        self.log, self.known = log, Windows(log)
        self.world = Core(*log.sizes)
        self.streams = log.streams
        self.states = [[0, 0, 0, False, 0] for _ in log.streams]
        self.made = []
        self.replied = {}

    def make(self, call, line):
        """Notes an event, which the world has done."""
        self.made.append((call.number, line))

    def mark(self):
        return len(self.world.trail), len(self.made)

    def go_back(self, mark):
        self.world.undo(mark[0])
        del self.made[mark[1]:]

    def current(self, stream):
        calls, at = self.streams[stream], self.states[stream][POS]
        return calls[at] if at < len(calls) else None

    def put(self, stream, field, value):
        self.world.put(self.states[stream], field, value)

    def done(self, stream, call):
        """The call is over."""
        state, put = self.states[stream], self.world.put
        put(state, POS, state[POS] + 1)
        if state[STAGE]:
            put(state, STAGE, 0)
        if state[RAN]:
            put(state, RAN, 0)
        if state[SERVED]:
            put(state, SERVED, False)
        if state[CLOSED]:
            put(state, CLOSED, 0)
        if call.life:
            self.world.set(call.life, "at", call.at + 1)

    def is_past(self, stream, index):
        """The stream's call of the index is over."""
        return self.states[stream][POS] > index

    def single(self, stream, call, line):
        """The event is all of the call."""
        self.make(call, line)
        self.done(stream, call)

    # --- a call that is refused, or looks

    def refusal(self, call, line, said):
        """A call that records a refusal is made as soon as the core refuses so."""
        if said.startswith("refused ") and word_of(said) == call.word:
            return EAGER, ((self.single, line),)
        return WAIT

    def refused(self, call, line, event, *args):
        """The same, where the core has to be asked."""
        mark = self.mark()
        said = event(*args)
        self.go_back(mark)
        return self.refusal(call, line, said)

    def when(self, holds, line):
        """A look, which is made as soon as it sees what it records."""
        return (EAGER, ((self.single, line),)) if holds else WAIT

    def reply_is_owed(self, request, thread):
        """The reply that the thread would give now is the next of those that were listed."""
        listed = self.known.listed.get(request.number)
        if listed is None:
            return True
        had = self.replied.get(request.number) or ()
        return len(had) < len(listed) and listed[len(had)] == (thread.name, self.world.reply_of(request, thread))

    # --- parts of calls

    def publish(self, call, thread):
        """A whole publication."""
        world, place = self.world, thread.place
        world.begin(thread)
        self.make(call, f"begin {place}")
        while thread.left:
            world.change(thread)
            self.make(call, f"change {place}")
        world.end(thread)
        self.make(call, f"end {place}")

    def serve(self, stream, call, thread):
        """The thread's oldest operation that isn't done: its job runs, and it is cleared."""
        world, state = self.world, self.states[stream]
        request = world.undone(thread.name)
        reply = (thread.name, world.reply_of(request, thread))
        world.put(self.replied, request.number, (self.replied.get(request.number) or ()) + (reply,))
        world.finish(thread)
        self.make(call, f"finish {thread.place}")
        world.clear(thread)
        self.make(call, f"clear {thread.place}")
        self.put(stream, RAN, state[RAN] + 1)

    def unfit(self, stream, call, request, thread):
        """None where the thread's next job is the call's next job, with its reply.

        Else WAIT, or NEVER where the reply is another.
        """
        if self.log.has_jobs:
            ran = self.states[stream][RAN]
            job = call.jobs[ran] if ran < len(call.jobs) else None
            if job is None or job.op != request.number or job.name != thread.name:
                return WAIT
            if job.reply != self.world.reply_of(request, thread):
                return NEVER
        return None if self.reply_is_owed(request, thread) else WAIT
