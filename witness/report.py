"""Tells of a log without an order how far one was found, and what stands against the next calls."""
from asks import ask_line, request_of
from drives import LOOKING, OPENING, TELLING
from programs import Programs
from run import CLOSED, RAN, STAGE
from thread_calls import AT_POLL, AWAKE, ENDED, ENDED_AGAIN, FRESH, LEGAL, STARTED, TAKEN

# Events that are of a thread's place, and those that take one number or none.
OF_PLACE = frozenset(
    "begin change end wake cross enter leave edge tovm fromvm tonative block exit take finish clear "
    "hold release".split())


class Report:
    """The world behind the beginning, made again by its events."""

    def __init__(self, log, beginning):
        self.run, self.beginning = Programs(log), beginning
        self.world = self.run.world
        for _, line in beginning.made:
            self.said(line)
        self.run.states = beginning.states

    def said(self, line):
        """What the core answers to an event, which it then has done."""
        word, *words = line.split(" ")
        if word == "ask":
            ask = None if words == ["census"] else (words[0], int(words[1])) if words[0] == "count" else (words[0],)
            return self.world.ask(ask, [int(name) for name in words[len(ask):]] if ask else ())
        numbers = [int(number) for number in words]
        if word not in OF_PLACE:
            return getattr(self.world, word)(*numbers)
        thread = self.world.at(numbers[0])
        return thread if type(thread) is str else getattr(self.world, word)(thread, *numbers[1:])

    def would_say(self, line):
        mark = self.run.mark()
        said = self.said(line)
        self.run.go_back(mark)
        return said

    # --- the next event of a call

    def next_line(self, call):
        stage = self.run.states[call.stream][STAGE]
        if call.call in LEGAL or call.call == "start":
            return self.next_of_thread(call, stage)
        if call.call.startswith("submit"):
            return ask_line(*request_of(call))
        if call.call.startswith("reclaim"):
            return self.next_of_reclaim(call, stage)
        if call.call.startswith("drive"):
            return self.next_of_drive(call, stage)
        words = {"live": "resolve 0", "replies": "resolve 0", "serve": f"finish {call.args[0] if call.args else 0}"}
        return words.get(call.call) or " ".join([call.call, *map(str, call.args)])

    def next_of_thread(self, call, stage):
        if stage == FRESH:
            return "start" if call.call == "start" else self.run.first_line(call)
        place = call.life.place if call.call == "start" else call.args[0]
        thread = self.world.places[place]
        if thread and thread.left is not None:
            return f"change {place}" if thread.left else f"end {place}"
        words = {STARTED: "begin", TAKEN: "begin", AT_POLL: "take", AWAKE: "cross", ENDED_AGAIN: "exit",
                 ENDED: "wake" if call.call == "start" else "exit"}
        serves = thread and self.world.undone(thread.name) and self.run.states[call.stream][RAN] < len(call.jobs)
        return f"{words.get(stage) or ('finish' if serves else 'cross')} {place}"

    def next_of_reclaim(self, call, stage):
        if stage == LOOKING:
            return self.next_look(call.args[0])
        if call.is_refused:
            return f"weigh {call.args[0]}"
        if self.run.states[call.stream][CLOSED]:
            return self.next_of_drive(call, stage)
        return "round" if call.call == "reclaim" else ask_line(*request_of(call))

    def next_look(self, serial):
        """The first place that isn't covered; or the code is weighed."""
        code = self.world.codes[serial]
        for place in range(len(self.world.places)):
            if not self.world.is_covered(place, code):
                return f"look {serial} {place}"
        return f"weigh {serial}"

    def next_of_drive(self, call, stage):
        if stage == OPENING:
            return "open"
        untold = [thread.name for thread in self.world.live() if self.world.untold(thread.name)]
        if stage == TELLING and untold:
            return f"tell {min(untold)}"
        late = [thread.place for thread in self.world.live() if self.world.poll(thread.name) and not thread.held]
        return f"hold {late[0]}" if late else "close"

    # --- what is told

    def blocked(self):
        """The calls that are next, the first that has to be over first. What begins behind its end can't have begun."""
        calls = [call for call in map(self.run.current, range(len(self.run.streams))) if call]
        calls.sort(key=lambda call: call.after)
        return [call for call in calls if call.before < calls[0].after]

    def lines(self, first):
        yield f"witness: {first}"
        returned = sum(call.word is not None for call in self.run.log.calls)
        yield f"calls in order: {self.beginning.over} of {returned}, events: {len(self.beginning.made)}"
        for call in self.blocked():
            line = self.next_line(call)
            yield call.text
            yield f"  {line} : {self.would_say(line)}"
        yield "beginning:"
        yield f"size {' '.join(map(str, self.run.log.sizes))}"
        for _, line in self.beginning.made:
            yield line
