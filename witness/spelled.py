"""The words of a log, and how many numbers stand behind each: the least and the most."""

CALLS = {
    "start": (0, 0), "call": (2, 3), "ret": (1, 1), "edge": (1, 1), "tovm": (1, 1), "fromvm": (1, 1),
    "tonative": (1, 1), "fromnative": (1, 1), "block": (1, 1), "unblock": (1, 1), "publish": (1, 1), "stop": (1, 1),
    "exit": (1, 1), "install": (1, 1), "invalidate": (1, 1), "live": (0, 0), "replies": (1, 1),
    "submit-depth": (0, 64), "submit-top": (0, 64), "submit-count": (1, 65), "submit-census": (0, 0),
    "open": (0, 0), "tell": (1, 1), "hold": (1, 1), "serve": (1, 1), "release": (1, 1), "operate": (0, 0),
    "close": (0, 1), "drive": (0, 0), "drivefour": (0, 0),
    "reclaim": (1, 1), "reclaim-depth": (2, 65), "reclaim-top": (2, 65), "reclaim-count": (3, 66),
}

ANSWERS = {
    "?": (0, 0),
    "ok": (0, 0), "thread": (2, 2), "compiled": (1, 1), "interpreted": (0, 0), "go": (0, 0), "stop": (1, 1),
    "served": (0, 0), "exited": (1, 1), "servedexited": (1, 1), "code": (1, 1), "names": (0, 64), "replies": (0, 128),
    "asked": (1, 1), "open": (1, 1), "told": (0, 0), "gone": (0, 0),
    "census": (1, 2049), "handshake": (1, 1), "closed": (1, 1), "freed": (0, 0), "used": (1, 1), "late": (1, 1),
}

# What a call may answer beside a refusal. A look isn't refused.
SAID = {
    **dict.fromkeys(("ret", "edge", "fromvm", "fromnative", "unblock"), ("go", "stop")),
    **dict.fromkeys(("tovm", "tonative", "block", "publish", "invalidate", "hold", "serve", "release"), ("ok",)),
    **dict.fromkeys(("submit-depth", "submit-top", "submit-count", "submit-census"), ("asked",)),
    **dict.fromkeys(("reclaim", "reclaim-depth", "reclaim-top", "reclaim-count"), ("freed", "used", "late")),
    "start": ("thread",), "call": ("compiled", "interpreted"), "stop": ("served", "ok"),
    "exit": ("exited", "servedexited"), "install": ("code",), "live": ("names",), "replies": ("replies",),
    "open": ("open",), "tell": ("told", "gone"), "operate": ("census",), "close": ("closed",),
    "drive": ("handshake", "census"), "drivefour": ("closed",),
}
LOOKS = ("live", "replies")

# Why a call is refused: answers without numbers.
REFUSALS = frozenset(
    "NoSuchPlace Illegal Vacant Publishing Held NoSuchMethod Unknown Unpublished DepthFull NotOf EmptyStack "
    "StackNotEmpty OperationPending NotDone NothingOpen NotTold AlreadyDone NotSafe NotHeld SafepointOpen PlacesFull "
    "Spent TableFull SerialsSpent NotInUse NotNotEntrant QueueFull NoTargets BadTargets AlreadyOpen QueueEmpty "
    "AlreadyTold NotAllHeld NotBegun ChangesLeft NotZombie".split())
ANSWERS.update(dict.fromkeys(REFUSALS, (0, 0)))
