"""Calls of a thread in which it may stop and serve: stops, starts and exits."""
from calls import LATEST
from run import CHOICE, EAGER, NEVER, RAN, SERVED, STAGE, WAIT
from thread_calls import AT_POLL, AWAKE, ENDED, ENDED_AGAIN, FRESH, STARTED, TAKEN, TURN_ENDED
from thread_events import VM


class Turns:
    def turn(self, stream, call, thread, stage):
        """A turn is Take, a publication, a job or none, and a poll that goes on or stops again."""
        if stage == AT_POLL:
            return self.takes(stream, call, thread)
        if stage == TAKEN:
            return self.publication(call, thread, TURN_ENDED)
        request = self.world.undone(thread.name)
        if request and request.ask and not self.states[stream][SERVED]:
            return self.serves(stream, call, thread, request)
        return self.ends_turn(stream, call, thread)

    def takes(self, stream, call, thread):
        """A Take for the call's next job comes once that job is told, behind the holds before it.

        A Take without a job comes behind all jobs and holds of the call.
        """
        world, request = self.world, self.world.undone(thread.name)
        if thread.held or world.awaits_census(thread.name):
            return WAIT
        ticket = LATEST
        if request and request.ask:
            why = self.unfit(stream, call, request, thread)
            if why:
                return why
            if self.log.has_jobs:
                ticket = call.jobs[self.states[stream][RAN]].ticket
        elif self.states[stream][RAN] < len(call.jobs):
            return WAIT
        must, may = self.spans_left(call, ticket)
        if must:
            return WAIT
        return (CHOICE if may or call.is_held else EAGER), ((self.do_take, thread),)

    def do_take(self, stream, call, thread):
        self.world.take(thread)
        self.make(call, f"take {thread.place}")
        self.put(stream, SERVED, False)
        self.put(stream, STAGE, TAKEN)

    def serves(self, stream, call, thread, request):
        why = self.unfit(stream, call, request, thread)
        if why:
            return self.ends_turn(stream, call, thread) if why is WAIT else why
        return (EAGER, ((self.do_serve, thread),)) if self.may_clear(request, thread.name) else WAIT

    def do_serve(self, stream, call, thread):
        self.serve(stream, call, thread)
        self.put(stream, SERVED, True)

    def is_last_turn(self, stream, call):
        """The turn fits the answer of a stop."""
        return call.call != "stop" or call.word is None or (call.word == "served") == self.states[stream][SERVED]

    def ends_turn(self, stream, call, thread):
        if self.world.poll(thread.name):
            return EAGER, ((self.act_on, thread, "cross", AT_POLL),)
        must, may = self.spans_left(call)
        if must or self.states[stream][RAN] < len(call.jobs) or not self.is_last_turn(stream, call):
            return self.goes_on_early(call, thread)
        return (CHOICE if may or call.is_told else EAGER), ((self.do_go_on, thread),)

    def goes_on_early(self, call, thread):
        """An exit that goes on is made again, and may then stop again for what is left."""
        return (CHOICE, ((self.do_go_on, thread),)) if call.call == "exit" else WAIT

    def do_go_on(self, stream, call, thread):
        self.world.cross(thread)
        self.make(call, f"cross {thread.place}")
        self.to_stage(stream, call, STARTED if call.call == "exit" else None)

    def stop(self, stream, call, thread):
        return self.turn(stream, call, thread, self.states[stream][STAGE] or AT_POLL)

    # --- a start: Start, a publication, Wake, a poll

    def start(self, stream, call):
        world, stage = self.world, self.states[stream][STAGE]
        if call.is_refused:
            return self.refused(call, "start", world.start)
        if stage == FRESH:
            return self.starts(call)
        thread = world.places[call.life.place] if call.life else None
        if stage == STARTED:
            return self.publication(call, thread, ENDED)
        if stage == ENDED:
            return self.wake_up(call, thread, AWAKE)
        if stage == AWAKE:
            return self.ends_turn(stream, call, thread)
        return self.turn(stream, call, thread, stage)

    def starts(self, call):
        world = self.world
        name, place = call.values or (0, 0)
        if call.word and world.names >= name:
            return NEVER
        if world.census_is_open() or call.word and (world.names + 1 != name or world.vacant() != place):
            return WAIT
        return CHOICE, ((self.do_start,),)

    def do_start(self, stream, call):
        self.world.start()
        self.make(call, "start")
        if call.life:
            self.put(stream, STAGE, STARTED)
        else:
            self.done(stream, call)

    # --- an exit: a publication and Exit; or behind the publication a poll that stops, turns, and so on anew

    def exits(self, stream, call, thread):
        stage = self.states[stream][STAGE]
        if thread.stack is not None:
            return NEVER
        if stage == FRESH:
            return self.publication(call, thread, ENDED)
        if stage == STARTED:
            return self.publication(call, thread, ENDED_AGAIN)
        if stage in (ENDED, ENDED_AGAIN):
            return self.leaves(stream, call, thread, stage == ENDED_AGAIN)
        return self.turn(stream, call, thread, stage)

    def leaves(self, stream, call, thread, has_turned):
        if self.world.poll(thread.name):
            if call.word == "exited":
                return NEVER
            return EAGER, ((self.act_on, thread, "fromvm" if thread.state == VM else "edge", AT_POLL),)
        if call.word == "servedexited" and not has_turned:
            return WAIT
        if self.states[stream][RAN] < len(call.jobs) or self.spans_left(call)[0] or not self.may_leave(thread):
            return self.publishes_again(call, thread, self.states[stream][STAGE])
        return CHOICE, ((self.act, thread, "exit"),)

    def publishes_again(self, call, thread, stage):
        """An exit that is to be made again publishes again, which a reclaiming sees that began since the last time."""
        if call.is_watched and thread.moment < self.world.moment:
            return CHOICE, ((self.do_publish, thread, stage),)
        return WAIT

    def may_leave(self, thread):
        """Whether the thread may leave its place.

        Each call that listed the thread as live, or found it at its place, is over. Each thread that started at a
        greater place before this place was taken again has started. The thread has given each reply that the log has of
        it.
        """
        seen = (*self.known.live_lists.get(thread.name, ()), *self.known.seen_at.get(thread.name, ()))
        if any(not self.is_past(stream, index) for stream, index in seen):
            return False
        for name, place in self.known.starts_to_come:
            if name > self.world.names:
                if place == thread.place:
                    break
                if place > thread.place:
                    return False
        return all(self.has_replied(number, thread.name) for number in self.known.owed.get(thread.name, ()))

    def has_replied(self, number, name):
        return any(who == name for who, _ in self.replied.get(number) or ())
