"""The core: what each event does and answers, as docs/model/MODEL.md says.

Each event is a method. It gives the answer of `monitor replay` to the event's line, and changes nothing where that
answer is a refusal. It takes a thread as the `Thread` at the thread's place.
"""
from thread_events import ThreadEvents
from world import FREED, IN_USE, NOT_ENTRANT, ZOMBIE, Code, Request, Thread, World

OPEN = 4
WAITING = 64
TARGETS = 64


class Core(ThreadEvents, World):
    # --- threads and codes

    def start(self):
        if self.census_is_open():
            return "refused SafepointOpen"
        place = self.vacant()
        if place is None:
            return "refused PlacesFull"
        self.set(self, "names", self.names + 1)
        self.put(self.places, place, Thread(self.names, place))
        return f"thread {self.names} place {place}"

    def install(self, method):
        if method >= self.methods:
            return "refused NoSuchMethod"
        if self.unfreed >= self.slots:
            return "refused TableFull"
        old = self.in_use.get(method)
        if old is not None:
            self.take_out_of_use(self.codes[old])
        self.set(self, "serials", self.serials + 1)
        serial = self.serials
        self.put(self.codes, serial, Code(serial, method))
        self.put(self.in_use, method, serial)
        self.set(self, "unfreed", self.unfreed + 1)
        return f"code {serial}"

    def take_out_of_use(self, code):
        self.set(code, "state", NOT_ENTRANT)
        self.set(code, "moment", self.moment)
        self.put(self.in_use, code.method, None)

    def unfreed_code(self, serial):
        code = self.codes.get(serial)
        return code if code and code.state != FREED else None

    def invalidate(self, serial):
        code = self.unfreed_code(serial)
        if code is None:
            return "refused Unknown"
        if code.state != IN_USE:
            return "refused NotInUse"
        self.take_out_of_use(code)
        return "ok"

    def round(self):
        self.set(self, "moment", self.moment + 1)
        return "ok"

    def look(self, serial, place):
        code = self.unfreed_code(serial)
        if code is None:
            return "refused Unknown"
        if code.state != NOT_ENTRANT:
            return "refused NotNotEntrant"
        if place >= len(self.places):
            return "refused NoSuchPlace"
        if not self.is_covered(place, code):
            return "late"
        self.set(code, "looked", code.looked | 1 << place)
        return "clear"

    def weigh(self, serial):
        code = self.unfreed_code(serial)
        if code is None:
            return "refused Unknown"
        if code.state != NOT_ENTRANT:
            return "refused NotNotEntrant"
        for place in range(len(self.places)):
            if not code.looked >> place & 1:
                return f"not looked {place}"
        count = self.counted.get(serial)
        if count:
            return f"used {count}"
        self.set(code, "state", ZOMBIE)
        return "retired"

    def free(self, serial):
        code = self.unfreed_code(serial)
        if code is None:
            return "refused Unknown"
        if code.state != ZOMBIE:
            return "refused NotZombie"
        self.set(code, "state", FREED)
        self.set(self, "unfreed", self.unfreed - 1)
        return "ok"

    def resolve(self, method):
        if method >= self.methods:
            return "refused NoSuchMethod"
        serial = self.in_use.get(method)
        return "none" if serial is None else f"code {serial}"

    # --- requests

    def ask(self, ask, names):
        """A handshake with its ask, as ("depth",), ("top",) or ("count", serial); or a census, where that is None."""
        if len(self.waiting) >= WAITING:
            return "refused QueueFull"
        if ask and not names:
            return "refused NoTargets"
        if ask and (len(names) > TARGETS or len(set(names)) != len(names)):
            return "refused BadTargets"
        self.set(self, "asked", self.asked + 1)
        self.set(self, "waiting", self.waiting + (Request(self.asked, ask, frozenset(names)),))
        return f"asked {self.asked}"

    def open(self):
        opened, waiting = self.opened, self.waiting
        if len(opened) >= OPEN or self.census_is_open() or (opened and waiting and waiting[0].ask is None):
            return "refused AlreadyOpen"
        if not waiting:
            return "refused QueueEmpty"
        request = waiting[0]
        self.set(self, "waiting", waiting[1:])
        self.set(request, "live", frozenset(thread.name for thread in self.live() if request.is_of(thread.name)))
        self.set(self, "opened", opened + (request,))
        return f"open {request.number} {'handshake' if request.ask else 'census'}"

    def tell(self, name):
        if not self.opened:
            return "refused NothingOpen"
        if not any(0 < name <= self.names if request.ask is None else name in request.names for request in self.opened):
            return "refused NotOf"
        if not self.is_live(name) or not any(name in request.live for request in self.opened):
            return "gone"
        request = self.untold(name)
        if request is None:
            return "refused AlreadyTold"
        self.set(request, "told", request.told | {name})
        return "told"

    def operate(self):
        if not self.opened:
            return "refused NothingOpen"
        request = self.opened[0]
        if request.ask:
            return "refused NotOf"
        if request.operated:
            return "refused AlreadyDone"
        live = self.live()
        if not all(thread.held for thread in live):
            return "refused NotAllHeld"
        if any(thread.left is not None for thread in live):
            return "refused Publishing"
        if not all(self.is_settled(thread) for thread in live):
            return "refused Unpublished"
        self.set(request, "operated", True)
        self.set(request, "done", request.done.union(thread.name for thread in live))
        return "".join(["census"] + [f" {serial}:{count}" for serial, count in self.census()])

    def is_over(self, request):
        if request.ask is None and not request.operated:
            return False
        return all(name in request.cleared or not self.is_live(name) for name in request.live)

    def close(self, number=None):
        if not self.opened:
            return "refused NothingOpen"
        request = self.opened[0]
        if number is not None:
            request = next((it for it in self.opened if it.number == number), None)
        if request is None:
            return "refused NotOf"
        if any(thread.held and request.is_of(thread.name) for thread in self.live()):
            return "refused Held"
        if not self.is_over(request):
            return "refused NotDone"
        self.set(self, "opened", tuple(it for it in self.opened if it is not request))
        return f"closed {request.number}"
