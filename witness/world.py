"""What the core has at a moment: threads, codes and requests, with a trail by which changes are taken back."""

IN_USE, NOT_ENTRANT, ZOMBIE, FREED = "in use", "not entrant", "zombie", "freed"


class Thread:
    """A live thread.

    `stack` is (method, serial or None, stack below) or None. `counts` says how often the thread has each code, `shown`
    how often it had the code as shown last. `moment` is the moment of the thread's last publication, 0 before one.
    `left` are the codes that an open publication has still to change, None where none is open. `begun` is the moment of
    the open publication.
    """
    __slots__ = ("name", "place", "state", "held", "stack", "depth", "counts", "shown", "moment", "left", "begun")

    def __init__(self, name, place):
        self.name, self.place, self.state, self.held = name, place, "New", False
        self.stack, self.depth, self.counts, self.shown = None, 0, {}, {}
        self.moment, self.left, self.begun = 0, None, 0


class Code:
    """A code; `moment` is that of its invalidation, `looked` has the bits of the places that were found clear."""
    __slots__ = ("serial", "method", "state", "moment", "looked")

    def __init__(self, serial, method):
        self.serial, self.method, self.state, self.moment, self.looked = serial, method, IN_USE, 0, 0


class Request:
    """A request, and once it is open the names that are told of it, done and cleared. `ask` is None for a census."""
    __slots__ = ("number", "ask", "names", "live", "told", "done", "cleared", "operated")

    def __init__(self, number, ask, names):
        self.number, self.ask, self.names = number, ask, names
        self.live = self.told = self.done = self.cleared = frozenset()
        self.operated = False

    def is_of(self, name):
        """The name is a target."""
        return self.ask is None or name in self.names


class World:
    def __init__(self, places, slots, methods):
        self.slots, self.methods = slots, methods
        self.places = [None] * places
        self.codes, self.in_use, self.counted = {}, {}, {}
        self.names = self.asked = self.serials = self.unfreed = 0
        self.moment = 1
        self.waiting, self.opened = (), ()
        self.trail = []

    # --- what was there before a change

    def set(self, of, field, value):
        self.trail.append((of, field, getattr(of, field)))
        setattr(of, field, value)

    def put(self, items, key, value):
        """In a list, or in a dict where None stands for nothing."""
        self.trail.append((items, key, items[key] if type(items) is list else items.get(key)))
        items[key] = value

    def undo(self, length):
        trail = self.trail
        while len(trail) > length:
            of, field, value = trail.pop()
            if type(field) is str:
                setattr(of, field, value)
            else:
                of[field] = value

    # --- what there is

    def at(self, place):
        """The thread at a place, or why there is none."""
        if place >= len(self.places):
            return "refused NoSuchPlace"
        return self.places[place] or "refused Illegal Vacant"

    def live(self):
        return [thread for thread in self.places if thread]

    def thread_of(self, name):
        """The live thread of the name, or None."""
        for thread in self.places:
            if thread and thread.name == name:
                return thread
        return None

    def is_live(self, name):
        return self.thread_of(name) is not None

    def census_is_open(self):
        return any(request.ask is None for request in self.opened)

    def vacant(self):
        """The least vacant place, None where all are taken."""
        return self.places.index(None) if None in self.places else None

    def undone(self, name):
        """The oldest open request that was told to the name and isn't done, None where there is none."""
        for request in self.opened:
            if name in request.told and name not in request.done:
                return request
        return None

    def uncleared(self, name):
        """The oldest open request that was told to the name and isn't cleared, None where there is none."""
        for request in self.opened:
            if name in request.told and name not in request.cleared:
                return request
        return None

    def poll(self, name):
        """The number that a poll of the name stops for, 0 to go on."""
        for request in reversed(self.opened):
            if name in request.told and name not in request.cleared:
                return request.number
        return 0

    def awaits_census(self, name):
        return any(request.ask is None and not request.operated and name in request.told for request in self.opened)

    def untold(self, name):
        """The oldest open request whose live target the name is and that wasn't told to it."""
        for request in self.opened:
            if name in request.live and name not in request.told:
                return request
        return None

    def reply_of(self, request, thread):
        kind = request.ask[0]
        if kind == "depth":
            return thread.depth
        if kind == "top":
            return thread.stack[1] or 0 if thread.stack else 0
        return thread.counts.get(request.ask[1], 0)

    def is_settled(self, thread):
        return thread.left is None and thread.counts == thread.shown

    def is_covered(self, place, code):
        thread = self.places[place]
        return thread is None or thread.moment == 0 or thread.moment > code.moment

    def census(self):
        """How many frames stand of each code, rising."""
        counts = {}
        for thread in self.live():
            for serial, count in thread.counts.items():
                counts[serial] = counts.get(serial, 0) + count
        return sorted(counts.items())
