#!/usr/bin/env python3
"""Writes an input of `monitor replay` to standard output: inputs.py KIND LINES [SEED]

The same arguments give the same bytes. A round of work is never cut, so there may be some more lines than asked for.

frames     one thread enters and leaves, at most 256 deep
wide       one thread pushes 256 codes, publishes, pops them, publishes: 512 changes a round
narrow     a stack of 256 codes stays; each publication changes two of them
mixed      64 threads, 1024 slots, 256 methods: random events, with refusals and bad lines among them
handshake  64 threads and a full queue of handshakes of 64 targets each, worked one after another
four       the same, four of them open at once, and closed in any order
census     64 threads with stacks and a full queue of censuses
reclaim    64 threads: code is installed, entered, published, invalidated, looked at everywhere, weighed, freed
replace    64 threads: code in use that stands on stacks is replaced by an install, looked at everywhere, weighed while
           it stands and once it is left, and freed
"""
import random
import sys

PLACES = 64
SLOTS = 1024
METHODS = 256
DEPTH = 256


def up(place):
    """A started thread publishes for the first time and goes into Java."""
    return [f"begin {place}", f"end {place}", f"wake {place}", f"cross {place}"]


def started(places):
    lines = []
    for place in range(places):
        lines += ["start", *up(place)]
    return lines


def installed():
    return [f"install {method}" for method in range(METHODS)]


def published(place, changes):
    """A publication of so many changes, and the answer that none is left."""
    return [f"begin {place}"] + [f"change {place}"] * (changes + 1) + [f"end {place}"]


def frames(rng):
    yield ["size 1 4 2", *started(1), "install 0"]
    depth = 0
    while True:
        lines = []
        for _ in range(1000):
            if depth == DEPTH or (depth and rng.random() < 0.5):
                lines.append("leave 0")
                depth -= 1
            else:
                lines.append("enter 0 0 1" if rng.random() < 0.9 else "enter 0 1")
                depth += 1
        yield lines


def wide(rng):
    yield ["size 1 1024 256", *started(1), *installed()]
    order = list(range(METHODS))
    rng.shuffle(order)
    pushes = [f"enter 0 {method} {method + 1}" for method in order]
    turn = pushes + published(0, METHODS) + ["leave 0"] * METHODS + published(0, METHODS)
    while True:
        yield turn


def narrow(rng):
    pushes = [f"enter 0 {method} {method + 1}" for method in range(METHODS)]
    yield ["size 1 1024 256", *started(1), *installed(), *pushes, *published(0, METHODS)]
    top = METHODS - 1
    while True:
        method = rng.randrange(METHODS)
        changes = 0 if method == top else 2
        top = method
        yield ["leave 0", f"enter 0 {method} {method + 1}", *published(0, changes)]


def crowd(rng):
    """64 threads in Java, each with eight published frames of random codes."""
    lines = ["size 64 1024 256", *started(PLACES), *installed()]
    for place in range(PLACES):
        methods = [rng.randrange(METHODS) for _ in range(8)]
        lines += [f"enter {place} {method} {method + 1}" for method in methods]
        lines += published(place, len(set(methods)))
    return lines


def shuffled_places(rng):
    places = list(range(PLACES))
    rng.shuffle(places)
    return places


def told_all():
    return [f"tell {name}" for name in range(1, PLACES + 1)]


def served(place, held, times=1):
    """The lines of a thread that stops and is served `times` times, with a poll each time.

    The coordinator serves the thread while it is held, or the thread serves itself.
    """
    if held:
        steps = ("edge", "hold", *("finish", "clear") * times, "release", "take", "cross")
    else:
        steps = ("edge", *("take", "finish", "clear", "cross") * times)
    return [f"{step} {place}" for step in steps]


def ask_all(rng):
    names = " ".join(str(name) for name in range(1, PLACES + 1))
    asks = ("depth", "top", f"count {rng.randrange(1, METHODS + 1)}")
    return f"ask {rng.choice(asks)} {names}"


def handshakes(rng, beside):
    """A full queue of handshakes of all threads, of which so many are open beside each other."""
    yield crowd(rng) + [ask_all(rng) for _ in range(64)]
    first = 1
    while True:
        lines = ["open"] * beside + [ask_all(rng) for _ in range(beside)] + told_all() * beside
        for place in shuffled_places(rng):
            lines += served(place, rng.random() < 0.5, beside)
        numbers = list(range(first, first + beside))
        rng.shuffle(numbers)
        yield lines + [f"close {number}" for number in numbers[1:]] + ["close"]
        first += beside


def handshake(rng):
    return handshakes(rng, 1)


def four(rng):
    return handshakes(rng, 4)


def census(rng):
    yield crowd(rng) + ["ask census"] * 64
    while True:
        lines = ["open", "ask census", *told_all()]
        places = shuffled_places(rng)
        for place in places:
            lines += [f"edge {place}", f"hold {place}"]
        lines.append("operate")
        for place in places:
            lines += [f"clear {place}", f"release {place}"]
        lines.append("close")
        for place in places:
            lines += [f"take {place}", f"cross {place}"]
        yield lines


def reclaim(rng):
    yield ["size 64 1024 256", *started(PLACES)]
    serial = 0
    while True:
        serial += 1
        method = rng.randrange(METHODS)
        users = rng.sample(range(PLACES), 4)
        lines = [f"install {method}"]
        for place in users:
            lines += [f"enter {place} {method} {serial}", *published(place, 1)]
        lines += [f"invalidate {serial}", "round"]
        for place in range(PLACES):
            if place in users:
                lines += [f"leave {place}", *published(place, 1)]
            else:
                lines += published(place, 0)
            lines.append(f"look {serial} {place}")
        yield lines + [f"weigh {serial}", f"free {serial}", f"state {serial}"]


def replace(rng):
    yield ["size 64 1024 256", *started(PLACES), *installed()]
    in_use = [method + 1 for method in range(METHODS)]
    newest = METHODS
    while True:
        methods = rng.sample(range(METHODS), 8)
        old = [in_use[method] for method in methods]
        stacks = [[] for _ in range(PLACES)]
        lines = []
        for method, before in zip(methods, old):
            newest += 1
            in_use[method] = newest
            users = rng.sample(range(PLACES), 4)
            lines += [f"enter {place} {method} {before}" for place in users]
            lines += [f"install {method}", f"resolve {method}", f"state {before}"]
            # those that call by the old code go on to the new one
            lines += [f"enter {place} {method} {serial}" for place in users for serial in (before, newest)]
            for place in users:
                stacks[place] += [before, newest]
        lines.append("round")
        for place, stack in enumerate(stacks):
            lines += published(place, len(stack)) + [f"look {serial} {place}" for serial in old]
        lines += [f"weigh {serial}" for serial in old]
        for place, stack in enumerate(stacks):
            lines += [f"leave {place}"] * len(stack) + published(place, len(stack))
        yield lines + [f"{event} {serial}" for serial in old for event in ("weigh", "free")]


BAD = ("", " start", "enter", "enter 0 0 x", "leave 00", "look 1", "count 99999999999999", "ask", "unknown 1 2 3",
       "size 1 1 1")


class Mixed:
    """What the generator knows of 64 threads, so that most of their events are accepted."""

    def __init__(self, rng):
        self.rng = rng
        self.native = [False] * PLACES
        self.stacks = [[] for _ in range(PLACES)]
        self.shown = [[] for _ in range(PLACES)]
        self.current = {method: method + 1 for method in range(METHODS)}
        self.next_serial = METHODS + 1
        self.retiring = []

    def enter(self, place):
        method = self.rng.randrange(METHODS)
        if self.native[place] or len(self.stacks[place]) == DEPTH:
            return [f"enter {place} {method}"]
        if method in self.current and self.rng.random() < 0.8:
            self.stacks[place].append(self.current[method])
            return [f"enter {place} {method} {self.current[method]}"]
        self.stacks[place].append(0)
        return [f"enter {place} {method}"]

    def leave(self, place):
        if not self.native[place] and self.stacks[place]:
            self.stacks[place].pop()
        return [f"leave {place}"]

    def edge(self, place):
        return [f"edge {place}"]

    def publish(self, place):
        lines = self.travel(place) if self.native[place] else []
        stack, shown = self.stacks[place], self.shown[place]
        codes = set(stack + shown) - {0}
        changes = sum(stack.count(code) != shown.count(code) for code in codes)
        self.shown[place] = list(stack)
        return lines + published(place, changes)

    def travel(self, place):
        self.native[place] = not self.native[place]
        return [f"tonative {place}"] if self.native[place] else [f"wake {place}", f"cross {place}"]

    def ask_codes(self, place):
        serial = self.rng.randrange(1, self.next_serial)
        return [self.rng.choice((f"count {serial}", f"state {serial}", f"resolve {self.rng.randrange(METHODS)}"))]

    def replace(self, place):
        """Code goes out of use, or new code comes, in place of the oldest that is going where all slots are taken."""
        method = self.rng.randrange(METHODS)
        if method in self.current:
            serial = self.current.pop(method)
            self.retiring.append(serial)
            return [f"invalidate {serial}"]
        if len(self.current) + len(self.retiring) == SLOTS:
            return self.reclaim_oldest()
        self.current[method] = self.next_serial
        self.next_serial += 1
        return [f"install {method}"]

    def reclaim_oldest(self):
        serial = self.retiring.pop(0)
        lines = ["round"]
        for place in range(PLACES):
            lines += self.publish(place) + [f"look {serial} {place}"]
        lines.append(f"weigh {serial}")
        if any(serial in stack for stack in self.stacks):
            self.retiring.append(serial)
            return lines
        return lines + [f"free {serial}"]

    def stray(self, place):
        event = self.rng.choice(("hold", "finish", "clear", "release", "take", "change", "end"))
        return [f"{event} {self.rng.randrange(PLACES + 2)}", self.rng.choice(BAD)]

    def some(self):
        """An event of one thread, or a few, most often an entry or a return."""
        place = self.rng.randrange(PLACES)
        if self.native[place] and self.rng.random() < 0.8:
            return self.travel(place)
        acts = (self.enter, self.leave, self.edge, self.publish, self.travel, self.ask_codes, self.replace, self.stray)
        act = self.rng.choices(acts, weights=(30, 25, 16, 4, 6, 10, 2, 1))[0]
        return act(place)


def mixed(rng):
    threads = Mixed(rng)
    yield ["size 64 1024 256", *started(PLACES), *installed()]
    while True:
        yield threads.some()


KINDS = {kind.__name__: kind for kind in (frames, wide, narrow, mixed, handshake, four, census, reclaim, replace)}


def write(kind, lines, seed, out):
    """Writes at least so many lines of the kind, and says how many."""
    written = 0
    for batch in KINDS[kind](random.Random(seed)):
        out.write("\n".join(batch) + "\n")
        written += len(batch)
        if written >= lines:
            return written


def main():
    if len(sys.argv) not in (3, 4) or sys.argv[1] not in KINDS:
        sys.exit(__doc__)
    seed = int(sys.argv[3]) if len(sys.argv) == 4 else 1
    write(sys.argv[1], int(sys.argv[2]), seed, sys.stdout)


if __name__ == "__main__":
    main()
