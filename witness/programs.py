"""What each stream may do next."""
from drives import Drives
from request_calls import RequestCalls
from run import NEVER, Run
from thread_calls import ThreadCalls
from turns import Turns


class Programs(ThreadCalls, Turns, RequestCalls, Drives, Run):
    def __init__(self, log):
        Run.__init__(self, log)
        self.goes = {"ret": self.ret, "edge": self.poll_call, "fromvm": self.poll_call, "tovm": self.move,
                     "tonative": self.move, "block": self.move, "call": self.call, "publish": self.publishes,
                     "fromnative": self.comes_back, "unblock": self.comes_back, "stop": self.stop, "exit": self.exits}
        of = {"start": self.start, "install": self.install, "invalidate": self.invalidate, "live": self.live,
              "replies": self.replies, "open": self.open, "tell": self.tell, "hold": self.hold,
              "serve": self.serve_held, "release": self.release, "operate": self.operate, "close": self.close,
              "drive": self.drive, "drivefour": self.drive, **dict.fromkeys(self.goes, self.thread_call)}
        for kind in ("depth", "top", "count", "census"):
            of[f"submit-{kind}"], of[f"reclaim-{kind}"] = self.submit, self.reclaim
        of["reclaim"] = self.reclaim
        self.programs = of

    def next_of(self, stream, call):
        """A verdict, and the steps that the stream may make next in its call."""
        return self.programs[call.call](stream, call) if call.is_sayable else NEVER
