"""What the answers of a log say of its calls before any search."""
from bisect import bisect_left, bisect_right

from asks import request_of
from lives import POLLS, Span, least_poll, lives_of, put_span

HOLDS = ("hold", "drive", "drivefour", "operate")
TELLS = ("tell", "drive", "drivefour")
DRIVES = ("drive", "drivefour")


class Windows:
    """What it notes beside the calls:

    `lives`           by name
    `told_behind`     by operation and name, the index of the last call of the thread that is over before it is told
    `refused_before`  by operation and name, the calls (stream and index) that were refused since it wasn't cleared
    `not_done`        by operation, its last Close that was refused so
    `newest`          by operation, the greatest name that was told it
    `last_entries`    by code, and `live_lists` by name: for each stream, the last call that enters it or lists it
    `listed`          by operation, the replies as they were listed last; `owed`: by name, the operations of these
    `starts_to_come`  the names and places of all starts
    `requests`        by operation, its ask and names
    `invalidations`   by code, the call that took it out of use (stream and index)
    `seen_at`         by name, calls that found the thread at its place
    `jobs`            by operation and name, the call in which the job ran
    `ends_before`     by operation and name, the ticket before which the job was done
    """

    def __init__(self, log):
        self.log = log
        self.by_place = lives_of(log)
        self.lives = {life.name: life for lives in self.by_place.values() for life in lives}
        self.last_entries, self.live_lists, self.listed, self.owed = {}, {}, {}, {}
        self.starts_to_come = sorted(
            tuple(call.values) for call in log.calls if call.call == "start" and call.word == "thread")
        self.told_behind, self.refused_before, self.not_done, self.newest = {}, {}, {}, {}
        self.invalidations, self.seen_at = {}, {}
        self.note_calls()
        self.note_polls()
        self.note_requests()
        for calls in log.streams:
            self.note_spans(calls)
        self.note_overlaps()
        self.note_told()

    # --- single calls

    def note_calls(self):
        for call in self.log.calls:
            call.span, call.drive_spans, call.census_spans = None, (), {}
            if call.word == "compiled":
                self.note_last(self.last_entries, call.values[0], call)
            elif call.call == "invalidate" and call.word == "ok":
                self.invalidations[call.args[0]] = (call.stream, call.index)
            elif call.call in ("hold", "serve", "release") and call.word not in (None, "Vacant", "NoSuchPlace"):
                self.note_seen(call)
            elif call.call == "live":
                for name in call.values:
                    self.note_last(self.live_lists, name, call)
            elif call.call == "replies":
                replies = tuple(zip(call.values[::2], call.values[1::2]))
                if len(replies) >= len(self.listed.get(call.args[0], ())):
                    self.listed[call.args[0]] = replies
        self.last_entries = {key: tuple(last.items()) for key, last in self.last_entries.items()}
        self.live_lists = {key: tuple(last.items()) for key, last in self.live_lists.items()}
        for number, replies in self.listed.items():
            for name, _ in replies:
                self.owed.setdefault(name, []).append(number)

    @staticmethod
    def note_last(noted, key, call):
        """By key and stream, the last call."""
        last = noted.setdefault(key, {})
        last[call.stream] = max(call.index, last.get(call.stream, -1))

    # --- calls that overlap others

    def note_overlaps(self):
        calls = self.log.calls
        reclaims = [call for call in calls if call.call.startswith("reclaim") and not call.is_refused]
        # A census that is driven has holds of which no job tells.
        holds = tells = [call for call in calls if call.call in DRIVES and not call.is_refused and not call.jobs]
        if not self.log.has_jobs:
            holds = [call for call in calls if call.call in HOLDS and not call.is_refused] + reclaims
            tells = [call for call in calls if call.call in TELLS and not call.is_refused] + reclaims
        # A refusal may see that a code isn't installed yet, or still in use.
        self.mark("is_watched",
                  reclaims + [call for call in calls if call.word in ("Unknown", "NotInUse", "NotNotEntrant")])
        self.mark("is_held", holds)
        self.mark("is_told", tells)
        self.mark("is_queue_seen", [call for call in calls if call.call == "open" and call.is_refused or
                                    call.call.startswith(("drive", "reclaim"))])
        self.mark("is_list_seen", [call for call in calls if call.call in ("start", "exit", "drive", "drivefour")
                                   or call.call.startswith(("submit", "reclaim")) and call.is_refused])

    def mark(self, field, others):
        """Whether a call overlaps one of the others, which is of another stream.

        A census that is known to hold the thread of the call has a span for that, and doesn't count.
        """
        for call in self.log.calls:
            setattr(call, field, False)
        for calls in self.log.streams:
            befores, afters = [call.before for call in calls], [call.after for call in calls]
            for other in others:
                if calls[0].stream != other.stream:
                    for call in calls[bisect_right(afters, other.before):bisect_left(befores, other.after)]:
                        if not call.life or call.life.name not in other.census_spans:
                            setattr(call, field, True)

    # --- polls of a thread

    def note_polls(self):
        """Notes for each call of a thread what the thread's next poll from there answers, and whether the thread rests
        before that poll.

        Where the thread rests, others may clear what it is told.
        """
        for life in self.lives.values():
            poll, rests = None, False
            for call in reversed(life.calls):
                if call.call in POLLS and not call.is_refused:
                    poll, rests = least_poll(call), call.call in ("fromnative", "unblock")
                elif call.call in ("stop", "start", "exit"):
                    rests = True
                call.next_poll, call.may_rest = poll, rests

    # --- requests, as each stream that works them has them

    def note_requests(self):
        """Notes the request of each number; by operation and name, the call in which the job ran, and the ticket before
        which the job was done.
        """
        self.requests, self.jobs, self.ends_before = {}, {}, {}
        for call in self.log.calls:
            if call.call.startswith("submit") and call.word == "asked":
                self.requests[call.values[0]] = request_of(call)
            for job, following in zip(call.jobs, [*(job.ticket for job in call.jobs[1:]), call.after]):
                self.jobs[job.op, job.name] = call
                self.ends_before[job.op, job.name] = following

    def note_spans(self, calls):
        """Goes through a stream: who is told what, held for what, and what was refused since it wasn't done."""
        opened, told, held = [], {}, {}
        for call in calls:
            kind = call.call
            if kind == "open" and call.word == "open":
                opened.append(call.values[0])
            elif kind == "tell" and call.word == "told":
                self.note_tell(call.args[0], opened, told.setdefault(call.args[0], []))
            elif kind == "hold":
                self.note_hold(call, told, held)
            elif kind == "close":
                self.note_close(call, opened)
            elif kind in ("serve", "release", "operate") and not call.is_refused:
                self.note_held(call, held)
            elif kind.startswith(("drive", "reclaim")):
                self.note_drive(call)
                if kind in DRIVES and not call.is_refused:
                    self.note_closed(call, opened, told)
        for span in held.values():
            self.put(span)

    def note_tell(self, name, opened, told):
        """The oldest open request that is new to the name is told, as far as the log shows which that is."""
        for number in opened:
            ask, names = self.requests.get(number, (None, ()))
            is_of = ask is None or name in names and (not self.log.has_jobs or (number, name) in self.jobs)
            if is_of and number not in told:
                told.append(number)
                self.newest[number] = max(name, self.newest.get(number, 0))
                return

    def note_hold(self, call, told, held):
        place = call.args[0]
        if call.word == "ok":
            call.span = held[place] = Span(call.stream, call.index, call.after, place)
        elif call.word in ("NotSafe", "Held", "AlreadyDone"):
            lives = self.lives_at(call)
            for life in lives:
                if told.get(life.name) and call.word != "AlreadyDone":
                    self.refused_before.setdefault((told[life.name][-1], life.name), []).append(
                        (call.stream, call.index))
            if call.word == "AlreadyDone" and len(lives) == 1:
                self.note_done(told.get(lives[0].name, ()), lives[0].name, call.after)

    def lives_at(self, call):
        """The lives at the call's place that it may have met."""
        return [life for life in self.by_place.get(call.args[0], ())
                if life.calls[0].before < call.after and call.before < life.calls[-1].after]

    def note_seen(self, call):
        """The call found a thread at its place: the only one that may have been there."""
        lives = self.lives_at(call)
        if len(lives) == 1:
            self.seen_at.setdefault(lives[0].name, []).append((call.stream, call.index))

    def note_done(self, numbers, name, ticket):
        """A thread is done with all that it was told before this ticket."""
        for number in numbers:
            if (number, name) in self.ends_before:
                self.ends_before[number, name] = min(ticket, self.ends_before[number, name])

    def note_close(self, call, opened):
        number = call.args[0] if call.args else opened[0] if opened else None
        if call.word == "NotDone" and number is not None:
            self.not_done[number] = call
        if call.word == "closed" and call.values[0] in opened:
            opened.remove(call.values[0])

    def note_closed(self, call, opened, told):
        """A drive tells all that are open, and closes the oldest, or as one of four all."""
        for number in opened:
            for name in self.requests.get(number, (None, ()))[1]:
                if number not in told.setdefault(name, []) and (not self.log.has_jobs or (number, name) in self.jobs):
                    told[name].append(number)
        closed = call.values[:1] if call.call == "drive" else list(opened)
        opened[:] = [number for number in opened if number not in closed]

    def note_held(self, call, held):
        """What is done for those that are held makes their time longer."""
        of_all = call.call == "operate"
        for place in list(held) if of_all else call.args:
            if place in held:
                held[place].reaches(call)
        if call.call == "release" and call.args[0] in held:
            self.put(held.pop(call.args[0]))

    def note_drive(self, call):
        """In a drive each job has a hold of its own, and runs at its ticket."""
        call.drive_spans = []
        for ran, job in enumerate(call.jobs):
            life = self.lives.get(job.name)
            span = Span(call.stream, call.index, job.ticket, life.place if life else None)
            span.ran, span.after, span.ops, span.name = ran, job.ticket, [job.op], job.name
            call.drive_spans.append(span)
            self.put(span)
        if call.call == "drive" and call.word == "census":
            self.note_census(call)

    def note_census(self, call):
        """A census that is driven holds each thread that has started before and exits behind it."""
        for life in self.lives.values():
            first, last = life.calls[0], life.calls[-1]
            if first.after <= call.before and (last.call != "exit" or last.is_refused or last.before >= call.after):
                span = Span(call.stream, call.index, call.after, life.place)
                span.ran, span.after, span.ops, span.name = len(call.jobs), call.before, call.values[:1], life.name
                self.put(span)
                if span.life:
                    call.census_spans[life.name] = span

    def put(self, span):
        put_span(span, self.by_place.get(span.place, ()))
        for at in span.ends:
            if at < len(span.life.calls):
                call = span.life.calls[at]
                call.spans = (*call.spans, span)

    # --- when a thread is told

    def note_told(self):
        """Notes the last call of the thread before it is told.

        A job runs in a call of the thread, or where the thread is held. The polls before the job that answer less than
        its number come before the thread is told.
        """
        if not self.log.has_jobs:
            return
        for (number, name), call in self.jobs.items():
            if call.life and call.life.name == name:
                self.told_behind[number, name] = last_before(call.life, call.at, number)
        for life in self.lives.values():
            for span in life.spans:
                for number in span.ops if len(span.ends) == 1 else ():
                    self.told_behind[number, life.name] = last_before(life, span.ends[0], number)


def last_before(life, at, number):
    """The last call before this one whose last poll answers less than the number; -1 where there is none."""
    for index in range(at - 1, -1, -1):
        if least_poll(life.calls[index]) < number:
            return index
    return -1
