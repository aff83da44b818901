"""The command `safepoint` of gdb: the systems of a program that links libsafepoint.a, and whom a stop awaits.

    (gdb) source PREFIX/share/safepoint/safepoint-gdb.py
    (gdb) safepoint system            of each system its parties, its requests, and whom it awaits
    (gdb) safepoint parties           its parties alone
    (gdb) safepoint awaited           whom it awaits, alone
    (gdb) safepoint system &party     the system of this party alone

It only reads memory, so it shows a program that runs under gdb, one to which gdb is attached, and a core dump. It finds
the parties that start by sp_start_thread or drive by sp_drive. For a host with its own waits, give a party's address.

The library has no debug information. FORM has where its structures keep their fields, in bytes: each keeps them in the
order of their declaration, as C does. So what is read of a thread is compared with the name and the place that
sp_start_thread noted for it, and a thread for which these differ isn't shown. What a call is changing at the moment may
be shown half changed.
"""
import struct

import gdb

# The rows and columns of `sp_listed` in safepoint_listed.c, and its entries: a party, a thread of the machine, a name,
# and the operation that is served.
PLACES, SYSTEMS, LISTED = 64, 16, struct.Struct("<4Q")
# Of crates/parties: Party, with a RunningThread or with its Drive; SharedSystem. Of crates/desk: Desk, Opened.
FORM = {
    "party": {"system": 0x0, "role": 0x8, "name": 0x10, "place": 0x18, "state": 0x28,
              "awaited": 0x150, "calls": 0x158, "called_kind": 0x160, "called_operation": 0x168, "called_place": 0x170},
    "system": {"polls": 0x58, "places": 0xa0, "desk": 0xb8},
    "desk": {"opened": 0x0, "open": 0x8, "live": 0x18, "threads": 0x20, "waiting": 0x98},
    "request": {"number": 0x0, "left": 0x8, "kind": 0x40, "targets": 0x50, "operated": 0x78},
}
REQUEST, LIVE, POLL = 0xa8, 0x10, 0x40  # bytes from one to the next
OPEN = 4  # the most requests that are open
RUNS, COORDINATES = 2, 4  # of the roles of a party
CENSUS = 1  # of the kinds of a request
IN_JAVA, IN_VM, AT_POLL, IN_NATIVE, BLOCKED, GIVEN, SERVING = range(7)
STATES = ("in Java", "in the VM", "at a poll", "in native code", "blocked", "stopped", "serving")
# Why a stop awaits a thread in this state. In the others the coordinator has its stack.
AWAITED = {IN_JAVA: "it hasn't polled", IN_VM: "it hasn't left the VM", AT_POLL: "it hasn't called sp_stop",
           SERVING: "its callback hasn't returned"}
FRAMES = 8  # that are shown of a thread


class Unreadable(Exception):
    """Why something isn't shown."""


def memory(at, size):
    try:
        return bytes(gdb.selected_inferior().read_memory(at, size))
    except gdb.MemoryError:
        raise Unreadable(f"there is no memory at {at:#x}") from None


def number_at(at, size=8):
    return int.from_bytes(memory(at, size), "little")


def counted(number, what):
    return f"{number} {what}{'' if number == 1 else 's'}"


class Record:
    """A structure of the library: its fields are attributes."""

    def __init__(self, kind, at):
        self.kind, self.at = kind, at

    def __getattr__(self, name):
        return number_at(self.at + FORM[self.kind][name])

    def byte(self, name):
        return number_at(self.at + FORM[self.kind][name], 1)


class Machine:
    """The threads of the machine, each by what pthread_self answers in it."""

    def __init__(self):
        self.threads = {}
        self.each(gdb.selected_inferior().threads(), self.note)

    def note(self, thread):
        self.threads[int(gdb.parse_and_eval("(unsigned long)$fs_base"))] = thread

    @staticmethod
    def each(threads, call):
        """Calls it with each of these threads, which is then the selected one."""
        now = gdb.selected_thread()
        try:
            for it in threads:
                it.switch()
                call(it)
        finally:
            now.switch()

    def title(self, handle):
        thread = self.threads.get(handle)
        if thread:
            return f"thread {thread.num} (LWP {thread.ptid[1]})"
        return "a thread of the machine that is gone" if handle else "a thread of the machine that isn't known"

    def functions(self, handle):
        """The functions that the thread is in, the innermost first."""
        names = []
        if handle in self.threads:
            self.each([self.threads[handle]], lambda _: names.extend(functions()))
        return " < ".join(names)


def functions():
    """The functions of the selected thread, as far as its stack can be read."""
    frame, names = gdb.newest_frame(), []
    try:
        while frame and len(names) < FRAMES:
            names.append(frame.name() or f"{frame.pc():#x}")
            frame = frame.older()
    except gdb.error:  # as of machine code that a runtime made
        pass
    return names


class Party:
    """A party, by its `at`, with the thread of the machine that started it, or that drove last."""

    def __init__(self, at, handle=0):
        self.at, self.handle, self.record = at, handle, Record("party", at)
        self.role, self.system = self.record.byte("role"), self.record.system

    @classmethod
    def given(cls, address):
        """The party whose `struct sp_party` is there."""
        if number_at(address, 1) != 1:
            raise Unreadable(f"no party is made at {address:#x}")
        return cls(number_at(address + 8))

    def is_noted(self, name, place):
        """Whether it is what safepoint_listed.c noted: a thread of this name and place, or a coordinator."""
        if place == PLACES:
            return self.role == COORDINATES
        is_same = self.role == RUNS and (self.record.name, self.record.place) == (name, place)
        return is_same and self.record.byte("state") < len(STATES)

    def has_system(self):
        return 1 <= Record("system", self.system).places <= PLACES

    def state(self):
        return self.record.byte("state")

    def called(self):
        """What the coordinator was told to run; nothing where it wasn't."""
        if not self.record.byte("calls"):
            return None
        operation = self.record.called_operation
        if self.record.byte("called_kind"):
            return f"the coordinator's VM operation {operation}"
        return f"the coordinator's callback for place {self.record.called_place}, operation {operation},"


def listed():
    """The listed parties, and how many are listed that are gone."""
    try:
        table = int(gdb.parse_and_eval("(unsigned long)&sp_listed"))
    except gdb.error:
        raise Unreadable("nothing lists parties: the program has no safepoint_listed.c, or is stripped. "
                         "`safepoint system ADDRESS` shows the system of the party at this address") from None
    found, gone = [], 0
    rows = LISTED.iter_unpack(memory(table, (PLACES + 1) * SYSTEMS * LISTED.size))
    for number, (at, handle, name, _) in enumerate(rows):
        if at:
            party = noted(at, handle, name, number // SYSTEMS)
            found, gone = (found + [party], gone) if party else (found, gone + 1)
    return found, gone


def noted(at, handle, name, place):
    """A listed party, or nothing where it is gone."""
    try:
        party = Party(at, handle)
        return party if party.is_noted(name, place) and party.has_system() else None
    except Unreadable:
        return None


class System:
    def __init__(self, at, parties, machine):
        self.at, self.machine, self.record = at, machine, Record("system", at)
        self.coordinators = [it for it in parties if it.role == COORDINATES]
        self.threads = {it.record.place: it for it in parties if it.role == RUNS}
        # The slot of the desk's lock: whether the desk is in it, and where. A call takes it out while it works on it.
        slot = self.record.desk
        self.desk = Record("desk", number_at(slot + 8)) if number_at(slot, 1) == 1 else None

    def live(self):
        """The name and the place of each live thread; of each listed one, while a call has the desk."""
        if self.desk is None:
            return [(it.record.name, place) for place, it in sorted(self.threads.items())]
        rows = memory(self.desk.live, LIVE * min(self.desk.threads, PLACES))
        return list(struct.iter_unpack("<2Q", rows))

    def party_of(self, name, place):
        it = self.threads.get(place)
        return it if it and it.record.name == name else None

    def told(self, place):
        """The number of the operation with which the place's poll is armed, 0 for none."""
        return number_at(self.record.polls + POLL * (place + 1))

    def title(self):
        return f"system {self.at:#x}: {counted(len(self.live()), 'thread')}, {counted(self.record.places, 'place')}"

    def parties(self):
        for it in self.coordinators:
            yield f"  coordinator: {self.where(it)}"
        for name, place in self.live():
            it, told = self.party_of(name, place), self.told(place)
            armed = f", armed with {told}" if told else ""
            says = f"{STATES[it.state()]}: {self.where(it)}" if it else "its party isn't listed"
            yield f"  name {name}, place {place}{armed}, {says}"

    def where(self, party):
        return f"{self.machine.title(party.handle)}, at {party.at:#x}"

    def requests(self):
        if self.desk is None:
            yield "  requests: not readable, since a call is just changing them"
            return
        for it in range(min(self.desk.open, OPEN)):
            yield f"  open: {self.request(Record('request', self.desk.opened + REQUEST * it))}"
        yield f"  waiting: {counted(self.desk.waiting, 'request')}"

    @staticmethod
    def request(it):
        if it.byte("kind") == CENSUS:
            return f"census {it.number}, {'operated' if it.byte('operated') else 'not operated'}"
        return f"handshake {it.number} of {counted(it.targets, 'target')}, {it.left} not done"

    def awaited(self):
        """Who was told an operation, and keeps it from its end."""
        lines = [*self.late(), *self.callbacks()]
        yield from lines or ["  awaited: nobody"]

    def late(self):
        for name, place in self.live():
            it, told = self.party_of(name, place), self.told(place)
            why = AWAITED.get(it.state()) if it else "its party isn't listed"
            if told and why:
                yield f"  awaited: name {name}, place {place}, armed with {told}: {why}"
                yield from self.functions(it)

    def callbacks(self):
        for it in self.coordinators:
            if it.called():
                yield f"  awaited: {it.called()} hasn't returned"
                yield from self.functions(it)

    def functions(self, party):
        if party and party.handle:
            yield f"    {self.machine.title(party.handle)} in {self.machine.functions(party.handle)}"


def parties_of(words):
    """The parties to show: all that are listed, or those of the system of one, and how many are gone."""
    if gdb.selected_thread() is None:
        raise Unreadable("there is no process and no core dump")
    if not words:
        return listed()
    given = Party.given(int(gdb.parse_and_eval(f"(unsigned long)({words})")))
    if not given.has_system():
        raise Unreadable("the library isn't one that this script knows")
    try:
        others = [it for it in listed()[0] if it.system == given.system]
    except Unreadable:
        return [given], 0
    is_listed = any(it.at == given.at for it in others)
    return others if is_listed else [given, *others], 0


def lines(parts, words):
    parties, gone = parties_of(words)
    machine = Machine()
    for at in dict.fromkeys(it.system for it in parties):
        system = System(at, [it for it in parties if it.system == at], machine)
        yield system.title()
        for part in parts:
            yield from part(system)
    if gone or not parties:
        yield f"listed parties that are gone: {gone}" if parties else "no party is listed"


PARTS = {"system": (System.parties, System.requests, System.awaited), "parties": (System.parties,),
         "awaited": (System.awaited,)}


class Safepoint(gdb.Command):
    """Shows the systems of a program that links libsafepoint.a.
safepoint system|parties|awaited [ADDRESS OF A PARTY]"""

    def __init__(self):
        super().__init__("safepoint", gdb.COMMAND_STATUS)

    def complete(self, text, word):
        return [it for it in PARTS if it.startswith(text)]

    def invoke(self, argument, from_tty):
        what, _, words = argument.strip().partition(" ")
        if what not in PARTS:
            raise gdb.GdbError("safepoint system|parties|awaited [ADDRESS OF A PARTY]")
        try:
            for line in lines(PARTS[what], words):
                print(line)
        except Unreadable as why:
            raise gdb.GdbError(f"safepoint: {why}") from None


Safepoint()
