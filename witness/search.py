"""Looks for an order of events in which each call answers what it is recorded to answer.

The search makes each step at once that can come before all else. It chooses among the other steps: what has to be over
first comes first. Where no step is left, the search goes back to its last choice. Some short tries, each with other
choices, come before the whole search.
"""
import random
import time

from calls import LATEST
from programs import Programs
from run import CLOSED, DEAD, EAGER, POS

FOUND, NONE, SPENT = "found", "none", "spent"
TRIES, SHORT = 40, 60
MOST_SEEN = 1 << 20


class Beginning:
    """The longest beginning that was found.

    It has the number of calls that are over, the events, and the states of the streams behind these events.
    """

    def __init__(self):
        self.over, self.made, self.states = -1, [], []


class Search(Programs):
    def __init__(self, log, budget, seconds):
        Programs.__init__(self, log)
        self.left, self.ends = budget, time.monotonic() + seconds
        self.total = sum(call.word is not None for call in log.calls)
        self.longest = Beginning()
        self.random, self.is_varied = random.Random(1), False

    def run(self):
        """FOUND, NONE where all was tried, or SPENT."""
        for turn in range(TRIES):
            self.is_varied = turn > 0
            found = self.try_for(SHORT)
            if found == FOUND or found == NONE and turn == 0 or self.is_spent():
                return found
            self.go_back((0, 0))
        self.is_varied = False
        return self.try_for(None)

    def is_spent(self):
        return self.left <= 0 or time.monotonic() > self.ends

    # --- what may be next

    def frontier(self):
        """Calls that begin behind this ticket can't have begun: some call has to be over before."""
        least = LATEST
        for state, calls in zip(self.states, self.streams):
            at = state[POS]
            if at < len(calls) and calls[at].after < least:
                least = calls[at].after
        return least

    def apply(self, stream, call, step):
        self.left -= 1
        step[0](stream, call, *step[1:])

    def settle(self):
        """Makes what can come before all else, until there is no such step. Whether all calls may go on."""
        states, streams = self.states, self.streams
        is_on = True
        while is_on:
            is_on = False
            least = self.frontier()
            for stream, calls in enumerate(streams):
                while True:
                    at = states[stream][POS]
                    if at >= len(calls) or calls[at].before >= least:
                        break
                    call = calls[at]
                    verdict, steps = self.next_of(stream, call)
                    if verdict == DEAD and call.word:
                        return False
                    if verdict != EAGER:
                        break
                    self.apply(stream, call, steps[0])
                    is_on = True
                    if states[stream][POS] != at:
                        least = self.frontier()
        return True

    def choices(self):
        """All steps that may be next, the first to be tried first."""
        least, found = self.frontier(), []
        for stream, calls in enumerate(self.streams):
            at = self.states[stream][POS]
            if at < len(calls) and calls[at].before < least:
                call = calls[at]
                verdict, steps = self.next_of(stream, call)
                for number, step in enumerate(steps if verdict != DEAD else ()):
                    found.append((self.rank(call), stream, number, step))
        found.sort(key=lambda it: it[:3])
        return [(stream, step) for _, stream, _, step in found]

    def rank(self, call):
        """The rank of a call: the call that has to be over first comes first.

        A call that hadn't returned comes as early as it may. So does a reclaiming, which makes its moment when it
        begins.
        """
        if self.is_varied and self.random.random() < 0.2:
            return self.random.randrange(LATEST)
        return call.before if call.after == LATEST or self.is_reclaim_begun(call) else call.after

    def is_reclaim_begun(self, call):
        return call.call.startswith("reclaim") and self.states[call.stream][CLOSED] == 0

    # --- going on and back

    def key(self):
        """What tells one point of the search from another."""
        world = self.world
        threads = tuple(
            (t.name, t.state, t.held, t.moment, t.begun, t.left, tuple(sorted(t.shown.items()))) if t else None
            for t in world.places)
        codes = tuple((code.state, code.moment, code.looked) for code in world.codes.values() if code)
        asked = tuple((it.number, it.live, it.told, it.done, it.cleared, it.operated) for it in world.opened)
        replied = tuple(sorted((number, replies) for number, replies in self.replied.items() if replies))
        return hash((tuple(map(tuple, self.states)), threads, codes, asked,
                     world.moment, world.names, world.asked, world.serials, replied))

    def try_for(self, most):
        """One try, which goes back at most so often, or as often as it may."""
        points, seen, backs = [], set(), 0
        while True:
            may_go_on = self.settle()
            if may_go_on and self.over() == self.total:
                return FOUND
            if self.is_spent():
                self.note_beginning()
                return SPENT
            steps = self.unseen(self.choices(), seen) if may_go_on else []
            if steps:
                points.append((self.mark(), steps))
            else:
                self.note_beginning()
                backs += 1
                if not self.to_last_choice(points):
                    return NONE
                if backs == most:
                    return SPENT
            stream, step = points[-1][1].pop(0)
            self.apply(stream, self.current(stream), step)

    def unseen(self, steps, seen):
        """None of the steps, where the try has been at this point."""
        if len(steps) < 2:
            return steps
        key = self.key()
        if key in seen:
            return []
        if len(seen) < MOST_SEEN:
            seen.add(key)
        return steps

    def to_last_choice(self, points):
        """Goes back to where another step is left, if there is such a point."""
        while points and not points[-1][1]:
            points.pop()
        if points:
            self.go_back(points[-1][0])
        return bool(points)

    def over(self):
        """How many calls are over, of those that returned: one that didn't is the last of its stream."""
        return sum(state[POS] - (state[POS] == len(calls) and calls[-1].word is None)
                   for state, calls in zip(self.states, self.streams))

    def note_beginning(self):
        over, longest = self.over(), self.longest
        if over > longest.over:
            longest.over, longest.made, longest.states = over, list(self.made), [list(state) for state in self.states]
