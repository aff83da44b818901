"""Events of a thread at its place."""
from world import IN_USE

DEPTH = 256

JAVA, VM = "InJava", "InVm"
POLL_JAVA, POLL_VM = "AtPoll(Java)", "AtPoll(Vm)"
NATIVE_JAVA, NATIVE_VM = "InNative(Java)", "InNative(Vm)"
SERVING_JAVA, SERVING_VM = "Serving(Java)", "Serving(Vm)"

# Where a poll that goes on leads, and one that stops.
GOES = {JAVA: JAVA, VM: JAVA, "NewTrans": JAVA, "NativeTrans(Java)": JAVA, "NativeTrans(Vm)": VM,
        "BlockedTrans": VM, SERVING_JAVA: JAVA, SERVING_VM: VM}
STOPS = {state: POLL_VM if after == VM else POLL_JAVA for state, after in GOES.items()}
WAKES = {"New": "NewTrans", NATIVE_JAVA: "NativeTrans(Java)", NATIVE_VM: "NativeTrans(Vm)", "Blocked": "BlockedTrans"}
TO_NATIVE = {JAVA: NATIVE_JAVA, VM: NATIVE_VM}
TAKES = {POLL_JAVA: SERVING_JAVA, POLL_VM: SERVING_VM}
CROSSES = frozenset(("NewTrans", "NativeTrans(Java)", "NativeTrans(Vm)", "BlockedTrans", SERVING_JAVA, SERVING_VM))
PUBLISHES = frozenset(("New", JAVA, VM, SERVING_JAVA, SERVING_VM))
SERVES = frozenset((SERVING_JAVA, SERVING_VM))
SAFE = frozenset(("New", NATIVE_JAVA, NATIVE_VM, "Blocked", POLL_JAVA, POLL_VM))


def illegal(thread):
    return f"refused Illegal {thread.state}"


def with_one(counts, serial, by):
    """The counts with one more or less of a code."""
    changed = dict(counts)
    count = changed.get(serial, 0) + by
    if count:
        changed[serial] = count
    else:
        changed.pop(serial, None)
    return changed


class ThreadEvents:
    # --- a publication

    def begin(self, thread):
        if thread.left is not None:
            return "refused Publishing"
        if not thread.held and thread.state not in PUBLISHES:
            return illegal(thread)
        self.set(thread, "begun", self.moment)
        counts, shown = thread.counts, thread.shown
        if counts == shown:
            self.set(thread, "left", ())
        else:
            self.set(thread, "left", tuple(sorted(
                serial for serial in counts.keys() | shown.keys() if counts.get(serial) != shown.get(serial))))
        return "ok"

    def change(self, thread):
        if thread.left is None:
            return "refused NotBegun"
        if not thread.left:
            return "change none"
        serial = thread.left[0]
        by = thread.counts.get(serial, 0) - thread.shown.get(serial, 0)
        self.put(self.counted, serial, (self.counted.get(serial) or 0) + by)
        self.set(thread, "left", thread.left[1:])
        return f"change {serial} {by:+d}"

    def end(self, thread):
        if thread.left is None:
            return "refused NotBegun"
        if thread.left:
            return "refused ChangesLeft"
        self.set(thread, "moment", thread.begun)
        self.set(thread, "shown", thread.counts)
        self.set(thread, "left", None)
        return "ok"

    # --- moves of a thread

    def move(self, thread, moves):
        """A move without a poll."""
        if thread.left is not None:
            return "refused Publishing"
        state = moves.get(thread.state)
        if state is None:
            return illegal(thread)
        self.set(thread, "state", state)
        return "ok"

    def wake(self, thread):
        if thread.held and thread.left is None and thread.state in WAKES:
            return "refused Held"
        return self.move(thread, WAKES)

    def tovm(self, thread):
        return self.move(thread, {JAVA: VM})

    def tonative(self, thread):
        return self.move(thread, TO_NATIVE)

    def block(self, thread):
        return self.move(thread, {VM: "Blocked"})

    def take(self, thread):
        if thread.left is None and thread.state in TAKES:
            if thread.held:
                return "refused Held"
            if self.awaits_census(thread.name):
                return "refused NotDone"
        return self.move(thread, TAKES)

    def polls(self, thread, states):
        if thread.left is not None:
            return "refused Publishing"
        if thread.state not in states:
            return illegal(thread)
        number = self.poll(thread.name)
        self.set(thread, "state", STOPS[thread.state] if number else GOES[thread.state])
        return f"stop {number}" if number else "go"

    def cross(self, thread):
        return self.polls(thread, CROSSES)

    def edge(self, thread):
        return self.polls(thread, (JAVA,))

    def fromvm(self, thread):
        return self.polls(thread, (VM,))

    def leave(self, thread):
        if thread.left is None and thread.state == JAVA:
            if thread.stack is None:
                return "refused EmptyStack"
            _, serial, below = thread.stack
            if serial is not None:
                self.set(thread, "counts", with_one(thread.counts, serial, -1))
            self.set(thread, "stack", below)
            self.set(thread, "depth", thread.depth - 1)
        return self.polls(thread, (JAVA,))

    def enter(self, thread, method, serial=None):
        if thread.left is not None:
            return "refused Publishing"
        if thread.state != JAVA:
            return illegal(thread)
        if method >= self.methods:
            return "refused NoSuchMethod"
        code = None if serial is None else self.codes.get(serial)
        if serial is not None and code is None:
            return "refused Unknown"
        if thread.moment == 0:
            return "refused Unpublished"
        if thread.depth >= DEPTH:
            return "refused DepthFull"
        if code and code.state != IN_USE:
            return "wrong method"
        if code and code.method != method:
            return "refused NotOf"
        if code:
            self.set(thread, "counts", with_one(thread.counts, serial, 1))
        self.set(thread, "stack", (method, serial, thread.stack))
        self.set(thread, "depth", thread.depth + 1)
        return "entered"

    def exit(self, thread):
        if thread.left is not None:
            return "refused Publishing"
        if thread.state not in (JAVA, VM):
            return illegal(thread)
        if thread.stack:
            return "refused StackNotEmpty"
        if not self.is_settled(thread):
            return "refused Unpublished"
        if self.poll(thread.name):
            return "refused OperationPending"
        self.put(self.places, thread.place, None)
        return f"exited {thread.name}"

    # --- at a safe point

    def of_told(self, thread, is_target):
        """Why no open request is told to the thread, or None."""
        if not self.opened:
            return "refused NothingOpen"
        if not any(is_target(request) for request in self.opened):
            return "refused NotOf"
        if not any(thread.name in request.told for request in self.opened):
            return "refused NotTold"
        return None

    def served(self, thread):
        """Why the thread isn't at a safe point, or None."""
        if thread.left is not None:
            return "refused Publishing"
        return None if thread.held or thread.state in SERVES else illegal(thread)

    def finish(self, thread):
        name = thread.name
        why = self.served(thread) or self.of_told(
            thread, lambda request: request.ask is not None and name in request.names)
        if why:
            return why
        request = self.undone(name)
        if request is None:
            return "refused AlreadyDone"
        if not self.is_settled(thread):
            return "refused Unpublished"
        self.set(request, "done", request.done | {name})
        return f"reply {self.reply_of(request, thread)}"

    def clear(self, thread):
        name = thread.name
        why = self.served(thread) or self.of_told(thread, lambda request: request.is_of(name))
        if why:
            return why
        request = self.uncleared(name)
        if request is None:
            return "refused AlreadyDone"
        if name not in request.done:
            return "refused NotDone"
        self.set(request, "cleared", request.cleared | {name})
        return "ok"

    def hold(self, thread):
        if thread.left is not None:
            return "refused Publishing"
        why = self.of_told(thread, lambda request: request.is_of(thread.name))
        if why:
            return why
        if not self.poll(thread.name):
            return "refused AlreadyDone"
        if thread.held:
            return "refused Held"
        if thread.state not in SAFE:
            return "refused NotSafe"
        self.set(thread, "held", True)
        return "ok"

    def release(self, thread):
        if thread.left is not None:
            return "refused Publishing"
        if not thread.held:
            return "refused NotHeld"
        self.set(thread, "held", False)
        return "ok"
