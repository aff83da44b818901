"""Calls that work an operation to its end: drives, and reclaimings with a handshake."""
from asks import ask_line, request_of
from run import CHOICE, CLOSED, EAGER, NEVER, RAN, STAGE, WAIT
from thread_events import SAFE
from world import NOT_ENTRANT

OPENING, TELLING, SERVING, COUNTED, LOOKING = range(5)


class Drives:
    # --- a drive: it opens, tells, holds, serves and lets go, and closes

    def drive(self, stream, call):
        world = self.world
        if call.word == "QueueEmpty":
            return self.when(not world.opened and not world.waiting, "open")
        if call.is_refused:
            return self.refused(call, "open", world.open)
        return self.driving(stream, call, self.states[stream][STAGE])

    def driving(self, stream, call, stage):
        if stage == OPENING:
            return self.opens(call)
        if stage == TELLING:
            return self.tells(call)
        request = self.world.opened[0] if self.world.opened else None
        if request is None:
            return self.has_closed(stream, call)
        if stage == COUNTED or self.may_close(request) and not self.has_more(stream, call):
            return self.closes(stream, call, request)
        return self.gathers(call, request) if request.ask is None else self.serves_next(stream, call)

    def opens(self, call):
        """It opens where nothing is open, and one of four as long as it may."""
        world = self.world
        if self.may_open() and (not world.opened or call.call == "drivefour"):
            return CHOICE, ((self.do_open_next,),)
        return (EAGER, ((self.to, TELLING),)) if world.opened else WAIT

    def to(self, stream, call, stage):
        self.put(stream, STAGE, stage)

    def do_open_next(self, stream, call):
        self.world.open()
        self.make(call, "open")

    def tells(self, call):
        names = [thread.name for thread in self.world.live() if self.world.untold(thread.name)]
        if not names:
            return EAGER, ((self.to, SERVING),)
        verdicts = [(self.may_tell(name), name) for name in sorted(names)]
        for verdict, name in verdicts:
            if verdict == EAGER:
                return EAGER, ((self.do_tell_next, name),)
        return CHOICE, tuple((self.do_tell_next, name) for verdict, name in verdicts if verdict)

    def do_tell_next(self, stream, call, name):
        self.world.tell(name)
        self.make(call, f"tell {name}")

    def serves_next(self, stream, call):
        """It holds and serves a thread that it finds."""
        if self.log.has_jobs:
            return self.serves_job(stream, call)
        found = []
        for thread in self.world.live():
            request = self.world.undone(thread.name)
            if thread.state in SAFE and not thread.held and request and self.reply_is_owed(request, thread):
                found.append((self.do_hold_and_serve, thread))
        return CHOICE, tuple(found)

    def serves_job(self, stream, call):
        """The next job of the call."""
        ran = self.states[stream][RAN]
        thread = self.world.thread_of(call.jobs[ran].name) if ran < len(call.jobs) else None
        request = self.world.undone(thread.name) if thread else None
        if request is None or thread.held or thread.state not in SAFE or self.unfit(stream, call, request, thread):
            return WAIT
        span = call.drive_spans[ran]
        if span.life and span.life.at not in span.ends or not self.may_clear(request, thread.name):
            return WAIT
        return (EAGER if len(span.ends) == 1 and not call.is_watched else CHOICE), ((self.do_hold_and_serve, thread),)

    def do_hold_and_serve(self, stream, call, thread):
        world = self.world
        world.hold(thread)
        self.make(call, f"hold {thread.place}")
        self.publish(call, thread)
        self.serve(stream, call, thread)
        request = world.undone(thread.name)
        while request and not self.log.has_jobs and self.reply_is_owed(request, thread):
            self.serve(stream, call, thread)
            request = world.undone(thread.name)
        world.release(thread)
        self.make(call, f"release {thread.place}")

    def gathers(self, call, request):
        """Of a census it holds all, and counts."""
        world = self.world
        live = world.live()
        if not all(thread.held for thread in live):
            return self.holds_next(call, [thread for thread in live if not thread.held])
        counts = [number for counted in world.census() for number in counted]
        if call.word == "census" and (call.call != "drive" or [request.number, *counts] != call.values):
            return WAIT
        return EAGER, ((self.do_count,),)

    def holds_next(self, call, threads):
        """It holds a thread that it finds; at once where the log shows in which of its calls the thread is held."""
        found = []
        for thread in threads:
            span = call.census_spans.get(thread.name)
            if thread.state not in SAFE or not self.world.poll(thread.name) or span and span.life.at not in span.ends:
                continue
            if span and len(span.ends) == 1:
                return EAGER, ((self.do_gather, thread),)
            found.append((self.do_gather, thread))
        return CHOICE, tuple(found)

    def do_gather(self, stream, call, thread):
        self.world.hold(thread)
        self.make(call, f"hold {thread.place}")

    def do_count(self, stream, call):
        self.count(call)
        for thread in self.world.live():
            self.world.release(thread)
            self.make(call, f"release {thread.place}")
        self.put(stream, RAN, self.states[stream][RAN] + 1)
        self.put(stream, STAGE, COUNTED)

    def has_more(self, stream, call):
        """A drive that closes one has jobs of others before its Close."""
        return call.call == "drive" and self.states[stream][RAN] < len(call.jobs)

    def may_close(self, request):
        world = self.world
        return world.is_over(request) and not any(thread.held and request.is_of(thread.name) for thread in world.live())

    def closes(self, stream, call, request):
        kind = "census" if request.ask is None else "handshake"
        if call.call == "drive" and call.word and (call.word != kind or call.values[0] != request.number):
            return NEVER
        # (a start that is refused for a census comes before its Close)
        return (CHOICE if request.ask is None and call.is_list_seen else EAGER), ((self.do_close_next,),)

    def do_close_next(self, stream, call):
        self.world.close()
        self.make(call, "close")
        if call.call == "drive":
            self.done(stream, call)
        elif call.call == "drivefour":
            self.put(stream, CLOSED, self.states[stream][CLOSED] + 1)
            if not self.world.opened:
                self.put(stream, STAGE, SERVING)
        else:
            self.put(stream, STAGE, LOOKING)

    def has_closed(self, stream, call):
        closed = self.states[stream][CLOSED]
        if call.call == "drivefour" and call.word and call.values[0] != closed:
            return NEVER
        return EAGER, ((self.done,),)

    # --- a reclaiming: with jobs it asks for a handshake, makes the moment, and works the handshake to its end; then it
    # looks, weighs and frees

    def reclaim(self, stream, call):
        world, serial, stage = self.world, call.args[0], self.states[stream][STAGE]
        if call.word == "AlreadyOpen":
            return self.when(bool(world.opened or world.waiting), "resolve 0")
        if call.is_refused:
            return self.refused(call, f"weigh {serial}", world.weigh, serial)
        if stage == LOOKING:
            return self.looks(call, serial)
        if self.states[stream][CLOSED]:
            return self.driving(stream, call, stage)
        code = world.codes.get(serial)
        if code is None or code.state != NOT_ENTRANT or call.call != "reclaim" and (world.opened or world.waiting):
            return WAIT
        return CHOICE, ((self.do_round,),)

    def do_round(self, stream, call):
        world = self.world
        if call.call != "reclaim":
            ask, names = request_of(call)
            world.ask(ask, names)
            self.make(call, ask_line(ask, names))
        world.round()
        self.make(call, "round")
        self.put(stream, CLOSED, 1)
        self.put(stream, STAGE, LOOKING if call.call == "reclaim" else OPENING)

    def looks(self, call, serial):
        world = self.world
        code = world.codes[serial]
        if code.state != NOT_ENTRANT:
            return WAIT
        late = next((place for place in range(len(world.places))
                     if not code.looked >> place & 1 and not world.is_covered(place, code)), None)
        counted = world.counted.get(serial) or 0
        said = f"late {late}" if late is not None else f"used {counted}" if counted else "freed"
        if call.word and said != " ".join([call.word, *map(str, call.values)]):
            return WAIT
        return CHOICE, ((self.do_weigh, serial),)

    def do_weigh(self, stream, call, serial):
        world = self.world
        for place in range(len(world.places)):
            world.look(serial, place)
            self.make(call, f"look {serial} {place}")
        said = world.weigh(serial)
        self.make(call, f"weigh {serial}")
        if said == "retired":
            world.free(serial)
            self.make(call, f"free {serial}")
        self.done(stream, call)
