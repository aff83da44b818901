"""What a thread calls, event by event."""
from calls import LATEST
from run import CHOICE, EAGER, NEVER, POS, RAN, STAGE, WAIT
from thread_events import JAVA, NATIVE_JAVA, NATIVE_VM, POLL_JAVA, POLL_VM, VM
from world import IN_USE

# The stages of calls that are several events.
FRESH, STARTED, ENDED, ENDED_AGAIN, AWAKE, AT_POLL, TAKEN, TURN_ENDED = range(8)

IN_JAVA, IN_VM, OWNS = (JAVA,), (VM,), (JAVA, VM)
# The states in which a call of a thread isn't illegal.
LEGAL = {"call": IN_JAVA, "ret": IN_JAVA, "edge": IN_JAVA, "tovm": IN_JAVA, "fromvm": IN_VM, "publish": OWNS,
         "tonative": OWNS, "block": IN_VM, "fromnative": (NATIVE_JAVA, NATIVE_VM), "unblock": ("Blocked",),
         "stop": (POLL_JAVA, POLL_VM), "exit": OWNS}


class ThreadCalls:
    def of_thread(self, stream, call):
        """The thread that calls, or a verdict where it can't."""
        thread = self.world.at(call.args[0])
        if type(thread) is str:
            return self.refusal(call, self.first_line(call), thread)
        if call.life and call.life.name != thread.name:
            return WAIT
        if self.states[stream][STAGE] == FRESH and thread.state not in LEGAL[call.call] and call.word != "Illegal":
            return NEVER
        return thread

    def first_line(self, call):
        """The first event of a thread's call."""
        words = {"ret": "leave", "call": "enter", "fromnative": "wake", "unblock": "wake", "publish": "begin",
                 "stop": "take"}
        numbers = " ".join(map(str, call.args))
        return f"{words.get(call.call, call.call)} {numbers}"

    def refused_call(self, call, thread):
        """A refused call of a thread is its first event."""
        world = self.world
        events = {"ret": world.leave, "fromnative": world.wake, "unblock": world.wake, "publish": world.begin,
                  "stop": world.take, "edge": world.edge, "tovm": world.tovm, "fromvm": world.fromvm,
                  "tonative": world.tonative, "block": world.block, "exit": world.exit}
        if call.call == "call":
            return self.refused(call, self.first_line(call), world.enter, thread, *call.args[1:])
        return self.refused(call, self.first_line(call), events[call.call], thread)

    def thread_call(self, stream, call):
        thread = self.of_thread(stream, call)
        if type(thread) is tuple:
            return thread
        if call.is_refused:
            return self.refused_call(call, thread)
        return self.goes[call.call](stream, call, thread)

    # --- one event

    def act(self, stream, call, thread, event):
        """An event of the thread, with which the call is over."""
        getattr(self.world, event)(thread)
        self.single(stream, call, f"{event} {thread.place}")

    def act_on(self, stream, call, thread, event, then):
        """An event of the thread, behind which the call is at that stage."""
        getattr(self.world, event)(thread)
        self.make(call, f"{event} {thread.place}")
        self.put(stream, STAGE, then)

    def polled(self, call, thread, event):
        """A poll whose answer is recorded."""
        number = self.world.poll(thread.name)
        wanted = call.values[0] if call.word == "stop" else 0
        if number > wanted and call.word:
            return NEVER
        return (EAGER, ((self.act, thread, event),)) if number == wanted or call.word is None else WAIT

    def ret(self, stream, call, thread):
        return self.polled(call, thread, "leave") if thread.stack else NEVER

    def poll_call(self, stream, call, thread):
        return self.polled(call, thread, call.call)

    def move(self, stream, call, thread):
        return EAGER, ((self.act, thread, call.call),)

    # --- a call of a method

    def call(self, stream, call, thread):
        _, method, *hint = call.args
        if not hint:
            return (EAGER, ((self.do_enter, thread, method, None, None),)) if call.word != "compiled" else NEVER
        serial = hint[0]
        code = self.world.codes.get(serial)
        if call.word == "interpreted":
            return (EAGER, ((self.do_enter, thread, method, None, serial),)) if code and code.state != IN_USE else WAIT
        if code is None:
            return WAIT
        if code.state != IN_USE or code.method != method:
            return NEVER
        return EAGER, ((self.do_enter, thread, method, serial, None),)

    def do_enter(self, stream, call, thread, method, serial, away):
        if away is not None:
            self.make(call, f"enter {thread.place} {method} {away}")
        self.world.enter(thread, method, serial)
        self.single(stream, call, f"enter {thread.place} {method}" + ("" if serial is None else f" {serial}"))

    # --- a publication

    def publication(self, call, thread, then):
        """A publication. Behind it the call is at the stage `then`, or over where that is None.

        Where a reclaiming may come in between, the publication is made one event after the other.
        """
        if not call.is_watched:
            return EAGER, ((self.do_publish, thread, then),)
        if thread.left is None:
            return CHOICE, ((self.do_begin, thread),)
        return CHOICE, ((self.do_change, thread) if thread.left else (self.do_end, thread, then),)

    def to_stage(self, stream, call, stage):
        if stage is None:
            self.done(stream, call)
        else:
            self.put(stream, STAGE, stage)

    def do_publish(self, stream, call, thread, then):
        self.publish(call, thread)
        self.to_stage(stream, call, then)

    def do_begin(self, stream, call, thread):
        self.world.begin(thread)
        self.make(call, f"begin {thread.place}")

    def do_change(self, stream, call, thread):
        self.world.change(thread)
        self.make(call, f"change {thread.place}")

    def do_end(self, stream, call, thread, then):
        self.world.end(thread)
        self.make(call, f"end {thread.place}")
        self.to_stage(stream, call, then)

    def publishes(self, stream, call, thread):
        return self.publication(call, thread, None)

    # --- back into its own hands

    def spans_left(self, call, ticket=LATEST):
        """Whether a hold must come before the call goes on, and whether one may.

        Only the holds that began before the ticket count.
        """
        must, may = False, False
        for span in call.spans:
            if span.before < ticket and not self.is_span_over(span):
                if span.ends[-1] == call.at:
                    must = True
                else:
                    may = True
        return must, may

    def is_span_over(self, span):
        state = self.states[span.stream]
        return state[POS] > span.last or (span.ran is not None and state[POS] == span.last and state[RAN] > span.ran)

    def wake_up(self, call, thread, then):
        """A Wake comes when nobody holds the thread, and behind the holds that have to be before it."""
        if thread.held:
            return WAIT
        must, may = self.spans_left(call)
        if must:
            return WAIT
        return (CHOICE if may or call.is_held else EAGER), ((self.act_on, thread, "wake", then),)

    def comes_back(self, stream, call, thread):
        if self.states[stream][STAGE] == AWAKE:
            return self.polled(call, thread, "cross")
        number = self.world.poll(thread.name)
        wanted = call.values[0] if call.word == "stop" else 0
        if number > wanted and call.word:
            return WAIT
        return self.wake_up(call, thread, AWAKE)
