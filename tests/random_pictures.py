#!/usr/bin/env python3
"""Compares pictures of random runs with a model of what they show: random_pictures.py MONITOR TIMELINE [LINES [SEED]]

`MONITOR replay` answers random lines one by one, over all events with their refusals and bad lines; the model here
follows lines and answers alone. Each run is drawn whole, and in parts. Of each picture the marks with their classes and
titles, the bars, the ties and the depths of stacks are compared, with the places where they stand, and no label may lie
over another. Over 20,000 lines and more each event must have been accepted and, where it can be, refused, and each kind
of answer given. LINES is 100,000 by default.
The last line is `N passed, N failed, N skipped`; the status is 0 where none failed.
"""
import collections
import random
import subprocess
import sys
import xml.etree.ElementTree as xml

from tally import Tally

SVG = "{http://www.w3.org/2000/svg}"
PANEL, TOP, LEFT, RIGHT = 1200, 156, 104, 8
PITCH = {"lines": 26, "operations": 28, "places": 52, "codes": 28}
MIDDLE = {"lines": 12, "operations": 18, "places": 22, "codes": 18}
LINES = ("lines", 0)
PAINTS = "new java vm native blocked transition atpoll serving publishing held".split()
PAINTS += "waiting handshake census inuse notentrant zombie".split()
ACTS = "begin change end wake cross enter leave edge tovm fromvm tonative block exit take".split()
ACTS += "finish clear hold release stack".split()
EVENTS = ACTS + "size start install invalidate round look weigh free ask open tell operate".split()
EVENTS += "close count state resolve".split()
NEVER_REFUSED = {"round"}
# Over so many lines each kind of answer comes about.
ENOUGH = 20_000


class Row:
    """One row of lanes: what it shows, since when, and when its name came."""

    def __init__(self):
        self.paint, self.since, self.begun = None, 0, 0


class Shown:
    """The bars of a run: (lane, class, first line, line behind the last)."""

    def __init__(self):
        self.bars, self.rows = [], collections.defaultdict(Row)

    def turn(self, key, lane, paint, at):
        row = self.rows[key]
        if row.paint != paint:
            if row.paint is not None:
                self.bars.append((lane, row.paint, row.since, at))
            row.paint, row.since = paint, at

    def vacant(self, group, at):
        n = 0
        while (group, n) in self.rows:
            row = self.rows[group, n]
            if row.paint is None and row.begun + 8 <= at:
                break
            n += 1
        return n

    def finish(self, at):
        for key in list(self.rows):
            self.turn(key, (key[0].removesuffix("'").removesuffix("*"), key[1]), None, at)


def state_paint(state):
    word = state.split("(")[0]
    return {
        "New": "new", "InJava": "java", "InVm": "vm", "InNative": "native", "Blocked": "blocked",
        "NewTrans": "transition", "NativeTrans": "transition", "BlockedTrans": "transition",
        "AtPoll": "atpoll", "Serving": "serving",
    }[word]


def back_of(state):
    return "Vm" if state in ("InVm", "BlockedTrans") or "(Vm)" in state else "Java"


def moved(state, word):
    """The state after an accepted move that doesn't poll."""
    if word == "wake":
        return {"New": "NewTrans", "Blocked": "BlockedTrans"}.get(state, f"NativeTrans({back_of(state)})")
    back = back_of(state)
    return {"tovm": "InVm", "tonative": f"InNative({back})", "block": "Blocked", "take": f"Serving({back})"}[word]


def polled(state, goes):
    """The state after a poll."""
    if state in ("InJava", "InVm", "NewTrans"):
        return "InJava" if goes else "AtPoll(Java)"
    back = back_of(state)
    return f"In{back}" if goes else f"AtPoll({back})"


class Operation:
    def __init__(self, number, names, row):
        self.number, self.names, self.row, self.newest = number, names, row, None
        self.told, self.done, self.cleared = set(), set(), set()


class Model:
    """Follows a run: its lanes, and of each line where its mark stands, and where a tie leads."""

    def __init__(self):
        self.shown = Shown()
        self.threads, self.depths, self.codes, self.operations = {}, {}, {}, []
        self.publishing, self.held = set(), set()
        self.newest, self.serials = 0, 0
        self.places_used = 0
        self.depth = None

    def operation(self, number):
        return next((it for it in self.operations if it.number == number), None)

    def open(self):
        return [it for it in self.operations if it.newest is not None]

    def lane(self, operation):
        return None if operation is None else ("operations", operation.row)

    def place_lane(self, place):
        return ("places", place) if place < self.places_used else None

    def code_lane(self, serial):
        return ("codes", self.codes[serial][1]) if serial in self.codes else None

    def in_use(self, method):
        return next((s for s, (m, _, used) in self.codes.items() if m == method and used), None)

    def lane_of_name(self, name):
        return next((("places", p) for p, (n, _) in self.threads.items() if n == name), None)

    def listing(self, name):
        return next((it for it in self.open() if it.names is None or name in it.names), None)

    def subject(self, words):
        """The lane of what a refused line, or one that changes nothing, is about."""
        word, numbers = words[0], [int(it) for it in words[1:] if it.isdigit()]
        if word in ("weigh", "free", "invalidate", "count", "state", "look"):
            return self.code_lane(numbers[0]) or LINES
        if word == "tell":
            return self.lane(self.listing(numbers[0])) or self.lane_of_name(numbers[0]) or LINES
        if word == "resolve":
            return self.code_lane(self.in_use(numbers[0])) or LINES
        if word in ("operate", "close"):
            chosen = self.operation(numbers[0]) if numbers else next(iter(self.open()), None)
            return self.lane(chosen) or LINES
        if word in ("size", "start", "install", "round", "ask", "open"):
            return LINES
        return self.place_lane(numbers[0]) or LINES

    def follow(self, line, answer, at):
        """The lane of the line's mark, and that to which a tie leads.

        `depth` is that of the thread, where the line changes it.
        """
        words = line.split(" ")
        self.depth = None
        if answer == "bad line" or answer == "refused BadSize":
            return LINES, None
        if answer.startswith("refused "):
            return self.subject(words), None
        act = getattr(self, "do_" + words[0], None)
        if act:
            return act(words, answer.split(" "), at)
        if words[0] in ("count", "state", "resolve"):
            return self.subject(words), None
        return self.at_place(words, answer.split(" "), at)

    def do_size(self, words, said, at):
        return LINES, None

    def do_round(self, words, said, at):
        return LINES, None

    def do_start(self, words, said, at):
        name, place = int(said[1]), int(said[3])
        self.newest = name
        self.places_used = max(self.places_used, place + 1)
        self.threads[place] = (name, "New")
        self.depths[place] = 0
        self.shown.turn(("places", place), ("places", place), "new", at)
        return ("places", place), None

    def do_install(self, words, said, at):
        method, serial = int(words[1]), int(said[1])
        old = self.in_use(method)
        tie = None
        if old is not None:
            tie = self.code_lane(old)
            self.codes[old] = (method, self.codes[old][1], False)
            self.shown.turn(("codes", self.codes[old][1]), tie, "notentrant", at)
        row = self.shown.vacant("codes", at)
        self.codes[serial] = (method, row, True)
        self.serials = serial
        self.shown.turn(("codes", row), ("codes", row), "inuse", at)
        self.shown.rows["codes", row].begun = at
        return ("codes", row), tie

    def do_invalidate(self, words, said, at):
        serial = int(words[1])
        method, row, _ = self.codes[serial]
        self.codes[serial] = (method, row, False)
        self.shown.turn(("codes", row), ("codes", row), "notentrant", at)
        return ("codes", row), None

    def do_look(self, words, said, at):
        return self.code_lane(int(words[1])), self.place_lane(int(words[2]))

    def do_weigh(self, words, said, at):
        lane = self.code_lane(int(words[1]))
        if said[0] == "retired":
            self.shown.turn(lane, lane, "zombie", at)
        return lane, self.place_lane(int(said[2])) if said[0] == "not" else None

    def do_free(self, words, said, at):
        lane = self.code_lane(int(words[1]))
        del self.codes[int(words[1])]
        self.shown.turn(lane, lane, None, at)
        return lane, None

    def do_ask(self, words, said, at):
        skipped = {"census": None, "depth": 2, "top": 2, "count": 3}[words[1]]
        names = None if skipped is None else {int(it) for it in words[skipped:]}
        row = self.shown.vacant("operations", at)
        self.operations.append(Operation(int(said[1]), names, row))
        self.shown.turn(("operations", row), ("operations", row), "waiting", at)
        self.shown.rows["operations", row].begun = at
        return ("operations", row), None

    def do_open(self, words, said, at):
        it = self.operation(int(said[1]))
        it.newest = self.newest
        self.shown.turn(self.lane(it), self.lane(it), said[2], at)
        return self.lane(it), None

    def do_tell(self, words, said, at):
        name = int(words[1])
        if said[0] == "gone":
            return self.lane(self.listing(name)), None
        for it in self.open():
            if (it.names is None or name in it.names) and name <= it.newest and name not in it.told:
                it.told.add(name)
                return self.lane(it), self.lane_of_name(name)
        raise AssertionError(words)

    def do_operate(self, words, said, at):
        return self.lane(self.open()[0]), None

    def do_close(self, words, said, at):
        it = self.operation(int(said[1]))
        lane = self.lane(it)
        self.operations.remove(it)
        self.shown.turn(lane, lane, None, at)
        return lane, None

    def at_place(self, words, said, at):
        word, place = words[0], int(words[1])
        lane = ("places", place)
        name, state = self.threads[place]
        tie = self.tie(words, said, name)
        if word in ("begin", "end"):
            self.publishing ^= {place}
            self.shown.turn(("places'", place), lane, "publishing" if word == "begin" else None, at)
        elif word in ("hold", "release"):
            self.held ^= {place}
            self.shown.turn(("places*", place), lane, "held" if word == "hold" else None, at)
        elif word == "exit":
            del self.threads[place]
            self.shown.turn(lane, lane, None, at)
        else:
            if said[0] in ("go", "stop"):
                state = polled(state, said[0] == "go")
            elif word in ("wake", "tovm", "tonative", "block", "take"):
                state = moved(state, word)
            self.threads[place] = (name, state)
            self.shown.turn(lane, lane, state_paint(state), at)
        if said[0] == "stack" and len(said) - 1 != self.depths[place]:
            raise AssertionError(f"the stack of place {place} has {said[1:]}, and the model {self.depths[place]}")
        more = (said[0] == "entered") - (word == "leave")
        self.depths[place] += more
        if more:
            self.depth = self.depths[place]
        return lane, tie

    def tie(self, words, said, name):
        word = words[0]
        if said[0] == "stop":
            return self.lane(self.operation(int(said[1])))
        if said[0] == "change" and said[1] != "none":
            return self.code_lane(int(said[1]))
        if word == "enter" and len(words) == 4:
            return self.code_lane(int(words[3]))
        told = [it for it in self.open() if name in it.told]
        if word == "finish":
            it = next(it for it in told if name not in it.done)
            it.done.add(name)
            return self.lane(it)
        if word == "clear":
            it = next(it for it in told if name not in it.cleared)
            it.cleared.add(name)
            return self.lane(it)
        if word == "hold":
            return self.lane(next(it for it in told if name not in it.cleared))
        return None


SHAPES = {
    "thread": "started", "exited": "exited", "stop": "stop", "entered": "entered",
    "wrong": "wrongmethod", "reply": "callback", "stack": "stack", "code": "code", "none": "nocode",
    "clear": "covered", "late": "late", "used": "used", "retired": "retired", "asked": "asked",
    "open": "opened", "closed": "closed", "told": "told", "gone": "gone", "census": "counted",
    "count": "count", "in": "state", "zombie": "state", "freed": "state",
}


def shape(line, answer):
    """The kind of an answer, by the line where the answer alone doesn't tell."""
    first = answer.split(" ")[0]
    word = line.split(" ")[0]
    if first == "bad":
        return "badline"
    if first == "refused":
        return "refusal"
    if first == "ok":
        return "cleared" if word == "clear" else "step"
    if first == "go":
        return "left" if word == "leave" else "go"
    if first == "change":
        return "nochange" if answer == "change none" else "change"
    if first == "not":
        return "state" if answer == "not entrant" else "notlooked"
    return SHAPES[first]


KINDS_OF_CODES = "install install invalidate round look look weigh free count state resolve".split()


class Player:
    """Plays random lines on `monitor replay`, one by one."""

    def __init__(self, monitor, seed):
        self.random = random.Random(seed)
        self.core = subprocess.Popen([monitor, "replay"], stdin=subprocess.PIPE, stdout=subprocess.PIPE)
        self.model, self.lines, self.answers, self.spots = Model(), [], [], []
        self.places = self.random.choice((1, 2, 3, 6))
        self.methods = self.random.choice((1, 2, 4))

    def play(self, line):
        self.core.stdin.write(line.encode() + b"\n")
        self.core.stdin.flush()
        answer = self.core.stdout.readline().decode().rstrip("\n")
        self.lines.append(line)
        self.answers.append(answer)
        self.spots.append(self.model.follow(line, answer, len(self.lines)))

    def place(self):
        live = list(self.model.threads)
        is_live = live and self.random.random() < .97
        return self.random.choice(live) if is_live else self.random.randrange(self.places + 1)

    def name(self):
        live = [name for name, _ in self.model.threads.values()]
        is_live = live and self.random.random() < .9
        return self.random.choice(live) if is_live else self.random.randint(1, self.model.newest + 1)

    def serial(self):
        codes = list(self.model.codes)
        is_known = codes and self.random.random() < .95
        return self.random.choice(codes) if is_known else self.random.randrange(self.model.serials + 2)

    def likely(self, place):
        """A word that the thread at the place may mostly do."""
        model = self.model
        if place not in model.threads or self.random.random() < .06:
            return self.random.choice([act for act in ACTS if act != "enter"])
        if place in model.publishing:
            return self.random.choice(("change", "end"))
        name, state = model.threads[place]
        state = state.split("(")[0]
        told = [it for it in model.open() if name in it.told and name not in it.cleared]
        if place in model.held:
            return self.random.choice(("begin", "finish", "clear", "release") if told else ("release",))
        if told and state in ("New", "InNative", "Blocked", "AtPoll") and self.random.random() < .5:
            return "hold"
        may = {
            "New": ("begin", "wake", "wake", "stack"),
            "InJava": (*["enter"] * 4, "leave", "edge", "tovm", "tonative", "begin", "begin", "exit"),
            "InVm": ("fromvm", "fromvm", "block", "tonative", "begin", "exit"),
            "InNative": ("wake",),
            "Blocked": ("wake",),
            "AtPoll": ("take",),
            "Serving": ("begin", "finish", "clear", "cross"),
        }
        return self.random.choice(may.get(state, ("cross",)))

    def at_place(self):
        place = self.place()
        word = self.likely(place)
        if word == "enter":
            code = f" {self.serial()}" if self.random.random() < .8 else ""
            serial = int(code) if code else None
            is_its = serial in self.model.codes and self.random.random() < .9
            method = self.model.codes[serial][0] if is_its else self.random.randrange(self.methods)
            return f"enter {place} {method}{code}"
        return f"{word} {place}"

    def names(self):
        live = [name for name, _ in self.model.threads.values()] or [1]
        chosen = self.random.sample(live, self.random.randint(1, len(live)))
        if self.random.random() < .3:
            chosen.append(self.model.newest + 1)
        if self.random.random() < .1:
            chosen.append(chosen[0])
        return " ".join(map(str, chosen))

    def of_operations(self):
        opened, kind = self.model.open(), self.random.random()
        if kind < .1 or not opened and len(self.model.operations) < 2:
            asked = f"depth {self.names()}", f"top {self.names()}", f"count {self.serial()} {self.names()}", "census"
            what = self.random.choice(asked)
            return f"ask {what}"
        if kind < .25 or not opened:
            return "open"
        if kind < .65:
            return f"tell {self.name()}"
        if opened[0].names is None and kind < .85:
            return "operate"
        return f"close {self.random.choice(opened).number}" if kind < .9 else "close"

    def of_codes(self):
        kind = self.random.choice(KINDS_OF_CODES)
        if kind in ("install", "resolve"):
            return f"{kind} {self.random.randrange(self.methods + (self.random.random() < .1))}"
        if kind == "round":
            return kind
        return f"look {self.serial()} {self.place()}" if kind == "look" else f"{kind} {self.serial()}"

    def next(self):
        kind = self.random.random()
        if kind < .015:
            long = "z" * self.random.choice((3, 1200))
            return self.random.choice(("", "start 1", "begin", "<&>", "size 1 1 1", "tell 01", "ask depth x", long))
        is_census = any(it.names is None for it in self.model.open())
        if kind < .03 or not self.model.threads and not is_census:
            return "start"
        if not self.model.threads:
            return self.of_operations()
        if kind < .68:
            return self.at_place()
        return self.of_operations() if kind < .84 else self.of_codes()

    def run(self, lines):
        if self.random.random() < .1:
            self.play("size 0 1 1")
        self.play(f"size {self.places} {self.random.choice((2, 4, 8))} {self.methods}")
        while len(self.lines) < lines:
            self.play(self.next())
        self.core.stdin.close()
        self.core.wait()
        self.core.stdout.close()
        return self


class Layout:
    """Where things stand, as docs/start/TIMELINE.md says."""

    def __init__(self, first, lines, lanes):
        self.first, self.lines = first, lines
        self.step, self.columns = (22, 49) if lines <= 200 else (12, 90) if lines <= 600 else (7, 155)
        self.top, at = {}, TOP
        for group in PITCH:
            self.top[group] = at
            at += lanes[group] * PITCH[group] + 10 if lanes[group] else 0

    def x(self, line):
        panel, column = divmod(line - self.first, self.columns)
        return panel * PANEL + LEFT + column * self.step

    def y(self, lane):
        return self.top[lane[0]] + lane[1] * PITCH[lane[0]]

    def mark(self, lane):
        return self.y(lane) + MIDDLE[lane[0]]


def band(lane, paint):
    return {"held": (11, 4), "publishing": (31, 6)}.get(paint, (15, 15) if lane[0] == "places" else (12, 12))


def wanted(played, first, last):
    """What a picture of these lines has: marks, bars, ties, and the depths of stacks for which there is room."""
    model = Model()
    spots, depths = [], []
    for n, (line, answer) in enumerate(zip(played.lines[:last], played.answers), 1):
        spots.append(model.follow(line, answer, n))
        depths.append(model.depth)
    model.shown.finish(last + 1)
    bars = [(lane, paint, max(since, first), to) for lane, paint, since, to in model.shown.bars if to > first]
    used = [lane for lane, *_ in bars] + [lane for spot in spots[first - 1:] for lane in spot if lane]
    lanes = {group: max([row + 1 for name, row in used if name == group], default=0) for group in PITCH}
    lanes["lines"] = 1
    layout = Layout(first, last - first + 1, lanes)
    marks, ties, numbers, free = [], [], [], collections.Counter()
    for n in range(first, last + 1):
        line, answer, (lane, tie) = played.lines[n - 1], played.answers[n - 1], spots[n - 1]
        kind = shape(line, answer)
        came = "bad" if kind == "badline" else "refused" if kind == "refusal" else "accepted"
        y = layout.mark(lane) + (12 if kind in ("change", "nochange") else 0)
        title = line[:1025] + "\n" + answer + "\n"
        marks.append((f"line{n}", f"{came} {kind}", title, f"#{kind}", str(layout.x(n)), str(y)))
        if tie:
            ties.append(f"M{layout.x(n)} {layout.mark(lane)}V{layout.mark(tie)}")
        depth = depths[n - 1]
        if depth is not None and free[lane] <= layout.x(n):
            numbers.append((str(layout.x(n) + 3), str(layout.y(lane) + 46), str(depth)))
            free[lane] = layout.x(n) + (7 if depth < 10 else 12 if depth < 100 else 17)
    drawn = []
    for lane, paint, since, to in bars:
        if to > since:
            down, height = band(lane, paint)
            x = layout.x(since)
            width = layout.x(to - 1) + layout.step - x
            drawn.append((paint, str(x), str(layout.y(lane) + down), str(width), str(height)))
    return marks, sorted(drawn), ties, numbers


def found(picture):
    root = xml.fromstring(picture)
    marks, bars = [], []
    for it in root.iter(f"{SVG}g"):
        use = it.find(f"{SVG}use")
        title = it.findtext(f"{SVG}title")
        marks.append((it.get("id"), it.get("class"), title, use.get("href"), use.get("x"), use.get("y")))
    for it in root.findall(f"{SVG}rect"):
        if it.get("class") in PAINTS:
            bars.append((it.get("class"), it.get("x"), it.get("y"), it.get("width"), it.get("height")))
    ties = [it.get("d") for it in root.iter(f"{SVG}path") if it.get("class") == "tie"]
    numbers = [(it.get("x"), it.get("y"), it.text) for it in root.iter(f"{SVG}text") if it.get("class") == "depth"]
    return (marks, sorted(bars), ties, numbers), root


def covered(root):
    """Labels that lie over another one."""
    boxes = collections.defaultdict(list)
    for it in root.iter(f"{SVG}text"):
        if it.get("class") in ("label", "name"):
            x = int(it.get("x"))
            boxes[it.get("y")].append((x, x + 5 * len(it.text), it.text))
    over = []
    for row in boxes.values():
        row.sort()
        over += [(a, b) for a, b in zip(row, row[1:]) if b[0] < a[1]]
    return over


def compared(timeline, played, first, last):
    words = [] if (first, last) == (1, len(played.lines)) else ["--from", str(first), "--to", str(last)]
    text = "".join(line + "\n" for line in played.lines).encode()
    ran = subprocess.run([timeline, *words], input=text, capture_output=True, timeout=120)
    if ran.returncode != 0 or ran.stderr:
        return [f"status {ran.returncode}, {ran.stderr!r}"]
    has, root = found(ran.stdout)
    wants = wanted(played, first, last)
    faults = []
    for name, a, b in zip(("marks", "bars", "ties", "depths"), has, wants, strict=True):
        if a != b:
            differ = next(((p, q) for p, q in zip(a, b) if p != q), (len(a), len(b)))
            faults.append(f"{name}: {differ[0]}, and not {differ[1]}")
    faults += [f"{b} lies over {a}" for a, b in covered(root)]
    return faults


def lacking(kinds, came):
    """What didn't come about: kinds of answers, and events that were accepted or refused."""
    wanted_kinds = set(SHAPES.values()) | set("badline refusal cleared step left go change nochange notlooked".split())
    wanted = {(event, refused) for event in EVENTS for refused in (False, True)} - {(it, True) for it in NEVER_REFUSED}
    return ([f"no line was answered as {kind}" for kind in sorted(wanted_kinds - set(kinds))]
            + [f"no {event} was {'refused' if refused else 'accepted'}" for event, refused in sorted(wanted - came)])


class Seen:
    """What came about: kinds of answers, and events that were accepted or refused."""

    def __init__(self):
        self.kinds, self.came = collections.Counter(), set()

    def add(self, played):
        for line, answer in zip(played.lines, played.answers):
            self.kinds[shape(line, answer)] += 1
            if answer != "bad line":
                self.came.add((line.split(" ")[0], answer.startswith("refused ")))


def judge(tally, timeline, played, seed, chance):
    """A picture of all lines, and one of some."""
    n = len(played.lines)
    first = chance.randint(1, n)
    for a, b in ((1, n), (first, chance.randint(first, n))):
        tally.judge(f"seed {seed}, lines {a} to {b}", compared(timeline, played, a, b)[:3])


def main(words):
    if len(words) not in (2, 3, 4):
        sys.exit("random_pictures.py MONITOR TIMELINE [LINES [SEED]]")
    monitor, timeline = words[:2]
    lines = int(words[2]) if len(words) > 2 else 100_000
    seed = int(words[3]) if len(words) > 3 else 1
    tally, seen, drawn = Tally(), Seen(), 0
    while drawn < lines:
        chance = random.Random(seed)
        played = Player(monitor, seed).run(chance.choice((40, 150, 200, 400, 900)))
        seen.add(played)
        drawn += len(played.lines)
        judge(tally, timeline, played, seed, chance)
        seed += 1
    all_came = "each event and each kind of answer came about"
    if lines < ENOUGH:
        tally.skip(all_came, f"{lines} lines are too few")
    else:
        tally.judge(all_came, lacking(seen.kinds, seen.came))
    return tally.end()


if __name__ == "__main__":
    sys.exit(main(sys.argv[1:]))
