"""Calls that are no thread's, but for drives and reclaimings.

They look, ask, tell, hold and close, and they install codes and take them out of use.
"""
from asks import ask_line, request_of
from core import OPEN
from run import CHOICE, EAGER, NEVER, WAIT
from world import IN_USE


class RequestCalls:
    # --- looks

    def live(self, stream, call):
        return self.when(
            sorted(thread.name for thread in self.world.live()) == call.values or call.word is None, "resolve 0")

    def replies(self, stream, call):
        listed = tuple(zip(call.values[::2], call.values[1::2]))
        return self.when(call.word is None or (self.replied.get(call.args[0]) or ()) == listed, "resolve 0")

    # --- codes

    def install(self, stream, call):
        world, method = self.world, call.args[0]
        if call.is_refused:
            return self.refused(call, f"install {method}", world.install, method)
        if call.word and world.serials >= call.values[0]:
            return NEVER
        if (world.unfreed >= world.slots or call.word and world.serials + 1 != call.values[0] or
                self.is_used_yet(world.in_use.get(method))):
            return WAIT
        return (CHOICE if call.is_watched else EAGER), ((self.do_install, method),)

    def is_entered_yet(self, serial):
        """Some call that enters the code has still to be made."""
        return any(not self.is_past(stream, index) for stream, index in self.known.last_entries.get(serial, ()))

    def is_used_yet(self, serial):
        """Some call that enters the code, or takes it out of use, has still to be made."""
        invalidation = self.known.invalidations.get(serial)
        return self.is_entered_yet(serial) or invalidation is not None and not self.is_past(*invalidation)

    def do_install(self, stream, call, method):
        self.world.install(method)
        self.single(stream, call, f"install {method}")

    def invalidate(self, stream, call):
        serial = call.args[0]
        if call.is_refused:
            return self.refused(call, f"invalidate {serial}", self.world.invalidate, serial)
        code = self.world.codes.get(serial)
        if code is None or self.is_entered_yet(serial):
            return WAIT
        if code.state != IN_USE:
            return NEVER
        return (CHOICE if call.is_watched else EAGER), ((self.do_invalidate, serial),)

    def do_invalidate(self, stream, call, serial):
        self.world.invalidate(serial)
        self.single(stream, call, f"invalidate {serial}")

    # --- requests

    def submit(self, stream, call):
        world, (ask, names) = self.world, request_of(call)
        if call.is_refused:
            return self.refused(call, ask_line(ask, names), world.ask, ask, names)
        if call.word and world.asked >= call.values[0]:
            return NEVER
        if call.word and world.asked + 1 != call.values[0]:
            return WAIT
        return (CHOICE if call.is_queue_seen else EAGER), ((self.do_submit, ask, names),)

    def do_submit(self, stream, call, ask, names):
        self.world.ask(ask, names)
        self.single(stream, call, ask_line(ask, names))

    def open(self, stream, call):
        world = self.world
        if call.is_refused:
            return self.refused(call, "open", world.open)
        if not self.may_open() or call.word and world.waiting[0].number != call.values[0]:
            return WAIT
        return (CHOICE if call.is_list_seen else EAGER), ((self.do_open,),)

    def may_open(self):
        """The oldest request may be open, and the threads that were told it have started."""
        world = self.world
        if not world.waiting or world.census_is_open() or len(world.opened) >= OPEN:
            return False
        oldest = world.waiting[0]
        return not (world.opened and oldest.ask is None) and world.names >= self.known.newest.get(oldest.number, 0)

    def do_open(self, stream, call):
        self.world.open()
        self.single(stream, call, "open")

    # --- one thread is told, held, served and let go

    def tell(self, stream, call):
        name = call.args[0]
        if call.is_refused:
            return self.refused(call, f"tell {name}", self.world.tell, name)
        if call.word == "gone":
            return self.tells_gone(call, name)
        verdict = self.may_tell(name)
        return (verdict, ((self.do_tell, name),)) if verdict else WAIT

    def tells_gone(self, call, name):
        mark = self.mark()
        said = self.world.tell(name)
        self.go_back(mark)
        return self.when(said == "gone", f"tell {name}")

    def may_tell(self, name):
        """EAGER where the thread has made all polls that come before it is told, CHOICE where these polls aren't known.

        Else None: not yet.
        """
        request = self.world.untold(name)
        if request is None or not self.world.is_live(name):
            return None
        life = self.known.lives.get(name)
        behind = self.known.told_behind.get((request.number, name))
        if behind is not None:
            return EAGER if life.at > behind else None
        return self.next_poll_allows(life, request.number) if life else CHOICE

    def next_poll_allows(self, life, number):
        """Whether what the thread's next poll answers lets it be told now."""
        call = life.calls[life.at] if life.at < len(life.calls) else None
        if call is None or call.next_poll is None or call.may_rest:
            return CHOICE
        return CHOICE if call.next_poll >= number else None

    def do_tell(self, stream, call, name):
        self.world.tell(name)
        self.single(stream, call, f"tell {name}")

    def hold(self, stream, call):
        world, place = self.world, call.args[0]
        thread = world.at(place)
        if type(thread) is str:
            return self.refusal(call, f"hold {place}", thread)
        mark = self.mark()
        said = world.hold(thread)
        self.go_back(mark)
        if call.word == "NotSafe" and said == "ok":
            return EAGER, ((self.do_hold_and_release, thread),)
        if call.is_refused or said != "ok":
            return self.refusal(call, f"hold {place}", said)
        return self.holds(call, thread)

    def holds(self, call, thread):
        """A hold comes at one of the calls at which it may end."""
        span = call.span
        if span is None or span.life is None:
            return CHOICE, ((self.act, thread, "hold"),)
        if span.life.name != thread.name or span.life.at not in span.ends:
            return WAIT
        request = self.world.undone(thread.name)
        if span.ops and (request is None or request.number != span.ops[0]):
            return WAIT
        return (EAGER if len(span.ends) == 1 else CHOICE), ((self.act, thread, "hold"),)

    def do_hold_and_release(self, stream, call, thread):
        self.world.hold(thread)
        self.make(call, f"hold {thread.place}")
        self.world.release(thread)
        self.single(stream, call, f"release {thread.place}")

    def serve_held(self, stream, call):
        world, place = self.world, call.args[0]
        thread = world.at(place)
        if type(thread) is str:
            return self.refusal(call, f"begin {place}", thread)
        if call.is_refused:
            return self.refused_serve(call, thread)
        request = world.undone(thread.name)
        if not thread.held or request is None or request.ask is None:
            return WAIT
        why = self.unfit(stream, call, request, thread)
        if why or not self.may_clear(request, thread.name):
            return why or WAIT
        return (CHOICE if call.is_watched else EAGER), ((self.do_serve_held, thread),)

    def refused_serve(self, call, thread):
        """A Serve is refused as its publication, or as its Finish, which calls illegal what the log calls not held."""
        mark = self.mark()
        said = self.world.finish(thread)
        self.go_back(mark)
        if call.word == "NotHeld" and said.startswith("refused Illegal"):
            return EAGER, ((self.single, f"finish {thread.place}"),)
        return self.refusal(call, f"finish {thread.place}", said)

    def do_serve_held(self, stream, call, thread):
        self.publish(call, thread)
        self.serve(stream, call, thread)
        self.done(stream, call)

    def release(self, stream, call):
        place = call.args[0]
        thread = self.world.at(place)
        if type(thread) is str:
            return self.refusal(call, f"release {place}", thread)
        if call.is_refused:
            return self.refused(call, f"release {place}", self.world.release, thread)
        return (EAGER, ((self.act, thread, "release"),)) if thread.held else WAIT

    # --- a census, and the end of an operation

    def operate(self, stream, call):
        world = self.world
        if call.is_refused:
            return self.refused(call, "operate", world.operate)
        request = world.opened[0] if world.opened else None
        if request is None or request.ask or request.operated or not all(thread.held for thread in world.live()):
            return WAIT
        counts = [number for counted in world.census() for number in counted]
        if call.word and [request.number, *counts] != call.values:
            return WAIT
        return (CHOICE if call.is_watched else EAGER), ((self.do_operate,),)

    def count(self, call):
        """All held threads are published, the census is operated, and they are cleared."""
        world = self.world
        live = world.live()
        for thread in live:
            self.publish(call, thread)
        world.operate()
        self.make(call, "operate")
        for thread in live:
            world.clear(thread)
            self.make(call, f"clear {thread.place}")

    def do_operate(self, stream, call):
        self.count(call)
        self.done(stream, call)

    def close(self, stream, call):
        world, number = self.world, call.args[0] if call.args else None
        line = "close" if number is None else f"close {number}"
        mark = self.mark()
        said = world.close(number)
        self.go_back(mark)
        if said.startswith("refused"):
            return self.refusal(call, line, said)
        if call.is_refused or call.word and said != f"closed {call.values[0]}":
            return WAIT
        return (CHOICE if call.is_list_seen else EAGER), ((self.do_close, number, line),)

    def do_close(self, stream, call, number, line):
        self.world.close(number)
        self.single(stream, call, line)

    # --- when a job may be done

    def may_clear(self, request, name):
        """What was refused because the name, or the last of all, wasn't cleared has been so."""
        if any(not self.is_past(stream, index)
               for stream, index in self.known.refused_before.get((request.number, name), ())):
            return False
        close = self.known.not_done.get(request.number)
        return close is None or self.is_past(close.stream, close.index) or self.has_other(request, name, close)

    def has_other(self, request, name, close):
        """Beside the name another one still keeps the operation from being over at that Close."""
        return any(other != name and other not in request.cleared and self.world.is_live(other) and
                   not self.is_before(request.number, other, close)
                   for other in request.live)

    def is_before(self, number, name, close):
        """The name's job was done when the Close was refused."""
        call = self.known.jobs.get((number, name))
        if call is None:
            return False
        return (call.stream == close.stream and call.index < close.index or
                self.known.ends_before[number, name] < close.before)
