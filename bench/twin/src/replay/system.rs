//! What events change: the places with their threads, the codes and the requests.

use super::codes::{Codes, State as CodeState};
use super::out::Out;
use super::places::Thread;
use super::requests::Requests;

/// The greatest number of a line, and the greatest that is given out.
pub const GREATEST: u64 = 1_099_511_627_775;

/// The name of the refusal, where there is one.
pub type Done = Result<(), &'static str>;

pub struct System {
    pub threads: Vec<Option<Box<Thread>>>,
    free: Vec<Box<Thread>>,
    pub slots: usize,
    /// A bit of each vacant place, and of each whose thread is held.
    vacant: u64,
    pub held: u64,
    pub names: u64,
    pub moment: u64,
    pub codes: Codes,
    pub requests: Requests,
}

/// The lowest so many bits.
fn lowest(count: usize) -> u64 {
    u64::MAX >> (64 - count)
}

/// The places of the bits.
pub fn places_of(mut bits: u64) -> impl Iterator<Item = usize> {
    std::iter::from_fn(move || {
        let place = (bits != 0).then(|| bits.trailing_zeros() as usize)?;
        bits &= bits - 1;
        Some(place)
    })
}

impl System {
    pub fn new(places: u64, slots: u64, methods: u64) -> Option<System> {
        if !(1..=64).contains(&places) || !(1..=1024).contains(&slots) || !(1..=256).contains(&methods) {
            return None;
        }
        Some(System {
            threads: (0..places).map(|_| None).collect(),
            free: Vec::new(),
            slots: slots as usize,
            vacant: lowest(places as usize),
            held: 0,
            names: 0,
            moment: 1,
            codes: Codes::new(slots as usize, methods as usize),
            requests: Requests::new(),
        })
    }

    pub fn live(&self) -> u64 {
        !self.vacant & lowest(self.threads.len())
    }

    /// The place of the thread of this name. While no thread has left, it is the one before its number.
    pub fn place_of(&self, name: u64) -> Option<usize> {
        let is_there = |place: usize| self.threads.get(place).is_some_and(|it| it.as_ref().is_some_and(|thread| thread.name == name));
        let usual = name.wrapping_sub(1) as usize;
        if is_there(usual) { Some(usual) } else { (0..self.threads.len()).find(|place| is_there(*place)) }
    }

    pub fn start(&mut self, out: &mut Out) -> Done {
        if self.requests.is_census_open() {
            return Err("SafepointOpen");
        }
        if self.vacant == 0 {
            return Err("PlacesFull");
        }
        if self.names == GREATEST {
            return Err("Spent");
        }
        let place = self.vacant.trailing_zeros() as usize;
        self.vacant &= self.vacant - 1;
        self.names += 1;
        let mut thread = self.free.pop().unwrap_or_else(|| Box::new(Thread::new(self.slots)));
        thread.begin_anew(self.names);
        self.threads[place] = Some(thread);
        out.counted(b"thread ", self.names);
        out.counted_line(b" place ", place as u64);
        Ok(())
    }

    pub fn vacate(&mut self, place: usize) {
        self.vacant |= 1 << place;
        self.requests.forget(place);
        self.free.extend(self.threads[place].take());
    }

    pub fn install(&mut self, method: u64, out: &mut Out) -> Done {
        if method >= self.codes.current.len() as u64 {
            return Err("NoSuchMethod");
        }
        out.counted_line(b"code ", self.codes.install(method as usize, self.moment)?);
        Ok(())
    }

    pub fn invalidate(&mut self, serial: u64, out: &mut Out) -> Done {
        self.codes.invalidate(serial, self.moment)?;
        out.text(b"ok\n");
        Ok(())
    }

    pub fn free(&mut self, serial: u64, out: &mut Out) -> Done {
        self.codes.free(serial)?;
        out.text(b"ok\n");
        Ok(())
    }

    pub fn round(&mut self, out: &mut Out) -> Done {
        if self.moment == GREATEST {
            return Err("Spent");
        }
        self.moment += 1;
        out.text(b"ok\n");
        Ok(())
    }

    pub fn look(&mut self, serial: u64, place: u64, out: &mut Out) -> Done {
        let code = self.codes.get_mut(serial)?;
        if code.state != CodeState::NotEntrant {
            return Err("NotNotEntrant");
        }
        let thread = self.threads.get(place as usize).ok_or("NoSuchPlace")?;
        let is_covered = thread.as_ref().is_none_or(|thread| !thread.published || thread.stored > code.moment);
        code.looked |= u64::from(is_covered) << place;
        out.text(if is_covered { b"clear\n" } else { b"late\n" });
        Ok(())
    }

    pub fn weigh(&mut self, serial: u64, out: &mut Out) -> Done {
        let all = lowest(self.threads.len());
        let code = self.codes.get_mut(serial)?;
        if code.state != CodeState::NotEntrant {
            return Err("NotNotEntrant");
        }
        let missing = !code.looked & all;
        if missing != 0 {
            out.counted_line(b"not looked ", u64::from(missing.trailing_zeros()));
        } else if code.count != 0 {
            out.counted_line(b"used ", u64::from(code.count));
        } else {
            code.state = CodeState::Zombie;
            out.text(b"retired\n");
        }
        Ok(())
    }

    pub fn count(&self, serial: u64, out: &mut Out) -> Done {
        out.counted_line(b"count ", u64::from(self.codes.get(serial)?.count));
        Ok(())
    }

    pub fn state(&self, serial: u64, out: &mut Out) -> Done {
        if !self.codes.was_given(serial) {
            return Err("Unknown");
        }
        out.text(match self.codes.get(serial).map(|code| code.state) {
            Err(_) => b"freed\n",
            Ok(CodeState::InUse) => b"in use\n",
            Ok(CodeState::NotEntrant) => b"not entrant\n",
            Ok(CodeState::Zombie) => b"zombie\n",
        });
        Ok(())
    }

    pub fn resolve(&self, method: u64, out: &mut Out) -> Done {
        match *self.codes.current.get(method as usize).ok_or("NoSuchMethod")? {
            0 => out.text(b"none\n"),
            serial => out.counted_line(b"code ", serial),
        }
        Ok(())
    }

    /// Why no census is taken of the threads.
    pub fn census_refusal(&self) -> Done {
        let live = || self.threads.iter().flatten();
        if self.held != self.live() {
            Err("NotAllHeld")
        } else if live().any(|thread| thread.publishing) {
            Err("Publishing")
        } else if live().any(|thread| thread.unsettled != 0) {
            Err("Unpublished")
        } else {
            Ok(())
        }
    }

    pub fn is_held(&self, place: usize) -> bool {
        self.held >> place & 1 == 1
    }
}
