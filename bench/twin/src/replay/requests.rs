//! The requests that wait and those that are open. A set of places is a word with a bit of each.

use super::out::Out;
use super::system::{Done, GREATEST, System, places_of};
use std::collections::VecDeque;

const WAITING: usize = 64;
const OPEN: usize = 4;

#[derive(Clone, Copy)]
pub enum Ask {
    Depth,
    Top,
    CountOf(u64),
}

pub enum Request {
    /// The targets' names in order.
    Handshake(Vec<u64>, Ask),
    Census,
}

impl Request {
    pub fn lists(&self, name: u64) -> bool {
        matches!(self, Request::Handshake(names, _) if names.binary_search(&name).is_ok())
    }

    pub fn is_census(&self) -> bool {
        matches!(self, Request::Census)
    }

    pub fn is_target(&self, name: u64) -> bool {
        self.is_census() || self.lists(name)
    }
}

pub struct Open {
    pub number: u64,
    pub request: Request,
    operated: bool,
    /// The live targets, and those of them that were told, are done and are cleared.
    live: u64,
    told: u64,
    done: u64,
    cleared: u64,
}

impl Open {
    pub fn is_told(&self, bit: u64) -> bool {
        self.told & bit != 0
    }

    pub fn is_done(&self, bit: u64) -> bool {
        if self.request.is_census() { self.operated } else { self.done & bit != 0 }
    }

    pub fn is_cleared(&self, bit: u64) -> bool {
        self.cleared & bit != 0
    }

    pub fn set_done(&mut self, bit: u64) {
        self.done |= bit;
    }

    pub fn set_cleared(&mut self, bit: u64) {
        self.cleared |= bit;
    }

    pub fn awaits_census(&self, bit: u64) -> bool {
        self.request.is_census() && !self.operated && self.is_told(bit)
    }
}

pub struct Requests {
    waiting: VecDeque<(u64, Request)>,
    /// The oldest first.
    pub opens: Vec<Open>,
    numbers: u64,
}

impl Requests {
    pub fn new() -> Requests {
        Requests { waiting: VecDeque::with_capacity(WAITING), opens: Vec::with_capacity(OPEN), numbers: 0 }
    }

    pub fn is_census_open(&self) -> bool {
        self.opens.first().is_some_and(|open| open.request.is_census())
    }

    /// The thread at the place has left.
    pub fn forget(&mut self, place: usize) {
        let others = !(1 << place);
        for open in &mut self.opens {
            open.live &= others;
            open.told &= others;
            open.done &= others;
            open.cleared &= others;
        }
    }

    /// Why an act that serves the open operations finds none for the place.
    pub fn idle_refusal(&self, bit: u64, is_target: impl Fn(&Request) -> bool) -> &'static str {
        if self.opens.is_empty() {
            "NothingOpen"
        } else if !self.opens.iter().any(|open| is_target(&open.request)) {
            "NotOf"
        } else if !self.opens.iter().any(|open| open.is_told(bit)) {
            "NotTold"
        } else {
            "AlreadyDone"
        }
    }

    pub fn ask(&mut self, names: &[u64], ask: Ask, out: &mut Out) -> Done {
        self.refuse_more()?;
        if names.is_empty() {
            return Err("NoTargets");
        }
        let mut names = names.to_vec();
        names.sort_unstable();
        if names.len() > 64 || names.windows(2).any(|two| two[0] == two[1]) {
            return Err("BadTargets");
        }
        self.push(Request::Handshake(names, ask), out);
        Ok(())
    }

    pub fn ask_census(&mut self, out: &mut Out) -> Done {
        self.refuse_more()?;
        self.push(Request::Census, out);
        Ok(())
    }

    fn refuse_more(&self) -> Done {
        if self.numbers == GREATEST {
            Err("Spent")
        } else if self.waiting.len() == WAITING {
            Err("QueueFull")
        } else {
            Ok(())
        }
    }

    fn push(&mut self, request: Request, out: &mut Out) {
        self.numbers += 1;
        self.waiting.push_back((self.numbers, request));
        out.counted_line(b"asked ", self.numbers);
    }

    fn may_open(&self) -> bool {
        let is_census_next = || self.waiting.front().is_some_and(|(_, request)| request.is_census());
        self.opens.is_empty() || (self.opens.len() < OPEN && !self.is_census_open() && !is_census_next())
    }
}

impl System {
    pub fn open(&mut self, out: &mut Out) -> Done {
        if !self.requests.may_open() {
            return Err("AlreadyOpen");
        }
        let (number, request) = self.requests.waiting.pop_front().ok_or("QueueEmpty")?;
        let name = |place: usize| self.threads[place].as_ref().map_or(0, |thread| thread.name);
        let live = places_of(self.live()).filter(|place| request.is_target(name(*place))).fold(0, |all, place| all | 1 << place);
        out.counted(b"open ", number);
        out.text(if request.is_census() { b" census\n" } else { b" handshake\n" });
        self.requests.opens.push(Open { number, request, operated: false, live, told: 0, done: 0, cleared: 0 });
        Ok(())
    }

    /// Whether a thread of this name may be told one of the open operations.
    fn may_tell(&self, name: u64) -> bool {
        let was_given = 0 < name && name <= self.names;
        self.requests.opens.iter().any(|open| open.request.lists(name) || open.request.is_census() && was_given)
    }

    pub fn tell(&mut self, name: u64, out: &mut Out) -> Done {
        if self.requests.opens.is_empty() {
            return Err("NothingOpen");
        }
        let place = self.place_of(name);
        let bit = place.map_or(0, |place| 1 << place);
        if let (Some(open), Some(place)) = (self.requests.opens.iter_mut().find(|open| open.live & !open.told & bit != 0), place) {
            open.told |= bit;
            self.threads[place].as_mut().unwrap().armed = open.number;
            out.text(b"told\n");
            return Ok(());
        }
        if !self.may_tell(name) {
            return Err("NotOf");
        }
        if self.requests.opens.iter().any(|open| open.live & bit != 0) {
            return Err("AlreadyTold");
        }
        out.text(b"gone\n");
        Ok(())
    }

    pub fn operate(&mut self, out: &mut Out) -> Done {
        let open = self.requests.opens.first().ok_or("NothingOpen")?;
        if !open.request.is_census() {
            return Err("NotOf");
        }
        if open.operated {
            return Err("AlreadyDone");
        }
        self.census_refusal()?;
        self.requests.opens[0].operated = true;
        out.text(b"census");
        for (serial, count) in self.codes.counts() {
            out.counted(b" ", serial);
            out.counted(b":", u64::from(count));
        }
        out.end_line();
        Ok(())
    }

    pub fn close(&mut self, number: Option<u64>, out: &mut Out) -> Done {
        let opens = &self.requests.opens;
        if opens.is_empty() {
            return Err("NothingOpen");
        }
        let at = number.map_or(Some(0), |number| opens.iter().position(|open| open.number == number)).ok_or("NotOf")?;
        let open = &opens[at];
        let name = |place: usize| self.threads[place].as_ref().map_or(0, |thread| thread.name);
        if places_of(self.held).any(|place| open.request.is_target(name(place))) {
            return Err("Held");
        }
        if open.request.is_census() && !open.operated || open.live & !open.cleared != 0 {
            return Err("NotDone");
        }
        out.counted_line(b"closed ", open.number);
        self.requests.opens.remove(at);
        Ok(())
    }
}
