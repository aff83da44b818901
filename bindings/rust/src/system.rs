//! A system of threads, as its coordinator.
use crate::callback::{with_callback, Ran, Served};
use crate::party::{Kind, Party};
use crate::refusal::Refusal;
use crate::shared::System;
use crate::sys;
use crate::waiting::{answer, nanoseconds, wait};
use std::ops::Deref;
use std::os::raw::c_void;
use std::time::Duration;

/// What became of a code.
#[derive(Clone, Copy, Debug, PartialEq, Eq, Hash)]
pub enum Reclaimed {
    /// It is freed: its memory may go.
    Freed,
    /// So many frames of it are on stacks.
    Used(u64),
    /// A thread may still enter it, and hasn't published since it may not: ask again later.
    Late,
}

impl Reclaimed {
    fn of(said: Result<u64, Refusal>) -> Result<Reclaimed, Refusal> {
        match said {
            Ok(0) => Ok(Reclaimed::Freed),
            Ok(frames) => Ok(Reclaimed::Used(frames)),
            Err(Refusal::Late) => Ok(Reclaimed::Late),
            Err(refusal) => Err(refusal),
        }
    }
}

/// What comes next in the work on a request.
#[derive(Clone, Copy, Debug, PartialEq, Eq, Hash)]
pub enum Next {
    /// The request of this number is closed.
    Closed(u64),
    /// A held thread is served next: the host runs its callback for this now.
    Run(Served),
    /// All live threads are held, and this census is operated: the host runs its VM operation now.
    AtSafepoint(u64),
    /// So many threads have still to come to a safe point. They come by themselves.
    Awaits(u64),
}

/// What a thread does that hasn't come, as far as that is known.
#[derive(Clone, Copy, Debug, PartialEq, Eq, Hash)]
pub enum Doing {
    /// Another system has a thread of this name at this place, which does something else.
    Unknown,
    /// It runs, and hasn't come to a stop.
    Runs,
    /// It runs its callback for this operation.
    Serves(u64),
}

/// A thread that a stop awaits.
#[derive(Clone, Copy, Debug, PartialEq, Eq, Hash)]
pub struct LateThread {
    /// Its name.
    pub name: u64,
    /// Its place.
    pub place: usize,
    /// A hint about what it does.
    pub doing: Doing,
}

impl LateThread {
    fn of(late: &sys::LateThread) -> LateThread {
        LateThread {
            name: late.name,
            place: late.place,
            doing: match late.state {
                sys::LATE_RUNS => Doing::Runs,
                sys::LATE_SERVES => Doing::Serves(late.operation),
                _ => Doing::Unknown,
            },
        }
    }
}

/// The most threads that a system has.
const PLACES: usize = 64;

/// A system of threads, as its coordinator: it works on what parties asked for. It asks what any [`Party`] may ask.
///
/// The calls that take a callback wait. They run it for each target that is held, on the thread that calls. A callback
/// makes no call that waits for another thread. Where a callback panics, the work goes on to its end, with the callback
/// for each further target; then the first panic goes on out of the call. So no thread stays held for a panic.
///
/// ```
/// use safepoint::{Refusal, Safepoints};
///
/// let mut system = Safepoints::new(2, 4, 1)?;
/// let mut thread = system.client()?.start(|_served| {})?;
/// let code = system.install(0)?;
/// let running = thread.call_with(0, |_thread, serial| Ok(serial))?;
/// assert_eq!(running, code);
/// let census = system.census()?;
/// assert_eq!(thread.in_native(|| system.drive(|_served| {}))??, census);
/// assert_eq!(system.counted(code)?, 0);
/// # Ok::<(), Refusal>(())
/// ```
///
/// It may pass to another thread of the host, and two don't share it:
///
/// ```
/// fn may_pass<T: Send>() {}
/// may_pass::<safepoint::Safepoints>();
/// ```
///
/// ```compile_fail,E0277
/// fn is_shared<T: Sync>() {}
/// is_shared::<safepoint::Safepoints>();
/// ```
#[derive(Debug)]
pub struct Safepoints {
    party: Party,
    system: System,
    /// From the first [`advance`](Safepoints::advance) for a request to the last.
    hint: Option<Hint>,
}

/// While it lives, each poll in line goes the slow way.
#[derive(Debug)]
struct Hint;

impl Hint {
    fn new() -> Hint {
        // SAFETY: it takes nothing.
        unsafe { sys::sp_polls_begin() };
        Hint
    }
}

impl Drop for Hint {
    fn drop(&mut self) {
        // SAFETY: it takes nothing, and `new` has begun.
        unsafe { sys::sp_polls_end() };
    }
}

impl Safepoints {
    /// Makes a system of at most so many threads at a time (1 to 64), codes (1 to 1024) and methods (1 to 256), which
    /// are numbered from 0.
    ///
    /// # Errors
    /// [`Refusal::BadSize`], [`Refusal::NoMemory`].
    pub fn new(places: usize, slots: usize, methods: usize) -> Result<Safepoints, Refusal> {
        let (system, party) = System::new(places, slots, methods)?;
        Ok(Safepoints {
            party,
            system,
            hint: None,
        })
    }

    /// The system, for threads that join it. They may outlive its coordinator.
    pub fn system(&self) -> System {
        self.system.clone()
    }

    /// Works the oldest request to its Close, and answers its number.
    ///
    /// # Errors
    /// [`Refusal::QueueEmpty`] where no request waits. [`Refusal::NoMemory`]: the request may be open, and a census
    /// keeps the threads that it holds; call again.
    ///
    /// # Panics
    /// Where the callback panics. The request is closed then.
    pub fn drive(&mut self, callback: impl FnMut(Served)) -> Result<u64, Refusal> {
        // SAFETY: the pointer is that of a party, which this thread alone has, and the callback can't reach it.
        self.running(callback, |party, call, with| unsafe {
            sys::sp_drive(party, call, with)
        })
        .resume()
    }

    /// The same for so long at most. The time bounds waits, and no callback.
    ///
    /// # Errors
    /// Those of [`drive`](Safepoints::drive), and [`Refusal::Timeout`]: the time is over. The request stays open then,
    /// a census keeps the threads that it holds, and the next drive continues.
    ///
    /// # Panics
    /// Where the callback panics. The request is closed then, unless the time is over.
    ///
    /// ```
    /// use safepoint::{Ask, Doing, Refusal, Safepoints};
    /// use std::time::Duration;
    ///
    /// let mut system = Safepoints::new(2, 4, 1)?;
    /// let mut thread = system.client()?.start(|_served| {})?;
    /// let operation = system.submit_to_all(Ask::Depth)?;
    /// let soon = Duration::from_millis(1);
    /// assert_eq!(system.drive_for(soon, |_served| {}), Err(Refusal::Timeout));
    /// let late = system.late()?;
    /// assert_eq!((late[0].name, late[0].doing), (thread.name(), Doing::Runs));
    /// thread.poll()?;
    /// assert_eq!(system.drive_for(soon, |_served| {}), Ok(operation));
    /// # Ok::<(), Refusal>(())
    /// ```
    pub fn drive_for(
        &mut self,
        time: Duration,
        callback: impl FnMut(Served),
    ) -> Result<u64, Refusal> {
        // SAFETY: as in `drive`.
        self.running(callback, |party, call, with| unsafe {
            sys::sp_drive_for(party, call, with, nanoseconds(time))
        })
        .resume()
    }

    /// The threads that are awaited, by rising names, after [`Refusal::Timeout`] of
    /// [`drive_for`](Safepoints::drive_for) or [`Next::Awaits`]. After another answer the list is an old one.
    ///
    /// # Errors
    /// `safepoint.h` lists none.
    pub fn late(&self) -> Result<Vec<LateThread>, Refusal> {
        let mut list = [sys::LateThread::default(); PLACES];
        // SAFETY: the pointer is that of a party, which this thread alone has, and the list has this room.
        let count =
            answer(unsafe { sys::sp_late(self.party.raw(), list.as_mut_ptr(), list.len()) })?;
        Ok(list[..count as usize].iter().map(LateThread::of).collect())
    }

    /// Works up to four handshakes at once, or one census, to their Close, and answers how many were closed, 0 where
    /// none waits.
    ///
    /// # Errors
    /// [`Refusal::NoMemory`], as of [`drive`](Safepoints::drive).
    ///
    /// # Panics
    /// Where the callback panics. The requests are closed then.
    pub fn drive_four(&mut self, callback: impl FnMut(Served)) -> Result<u64, Refusal> {
        // SAFETY: as in `drive`.
        self.running(callback, |party, call, with| unsafe {
            sys::sp_drive_four(party, call, with)
        })
        .resume()
    }

    /// Runs a VM operation: submits a census and works on requests until it is closed. The callback runs once while all
    /// live threads are held, with [`Kind::Census`], and for each held target of handshakes that were
    /// submitted before. Answers the census's number.
    ///
    /// # Errors
    /// Those of [`census`](Party::census) and of [`drive`](Safepoints::drive).
    ///
    /// # Panics
    /// Where the callback panics. The census is closed then.
    pub fn at_safepoint(&mut self, callback: impl FnMut(Served)) -> Result<u64, Refusal> {
        // SAFETY: as in `drive`.
        self.running(callback, |party, call, with| unsafe {
            sys::sp_at_safepoint(party, call, with)
        })
        .resume()
    }

    /// Works on the oldest request as far as that goes without waiting for threads, and says what comes next. It is
    /// for a host with its own waits, which calls again at any time; [`drive`](Safepoints::drive) does all.
    ///
    /// The host runs its callback for [`Next::Run`] itself. If that panics, the thread stays held until the next
    /// `advance`. A `Safepoints` that is dropped with an open request leaves held threads held.
    ///
    /// # Errors
    /// Those of [`drive`](Safepoints::drive).
    pub fn advance(&mut self) -> Result<Next, Refusal> {
        let hint = self.hint.take().unwrap_or_else(Hint::new);
        let said = wait(|| self.party.once(sys::sp_advance));
        // The call may have let threads go.
        // SAFETY: it takes nothing.
        unsafe { sys::sp_ring() };
        if let Err(Refusal::Run | Refusal::AtSafepoint | Refusal::Awaits) = said {
            self.hint = Some(hint);
        }
        match said {
            Ok(number) => Ok(Next::Closed(number)),
            Err(Refusal::Run) => self.called().map(Next::Run),
            Err(Refusal::AtSafepoint) => {
                answer(self.party.once(sys::sp_called_operation)).map(Next::AtSafepoint)
            }
            Err(Refusal::Awaits) => answer(self.party.once(sys::sp_awaited)).map(Next::Awaits),
            Err(refusal) => Err(refusal),
        }
    }

    /// The frames of a code in the census that was operated last.
    ///
    /// # Errors
    /// `safepoint.h` lists none.
    pub fn counted(&self, serial: u64) -> Result<u64, Refusal> {
        // SAFETY: the pointer is that of a party, which this thread alone has.
        answer(unsafe { sys::sp_counted(self.party.raw(), serial) })
    }

    /// Reclaims a code that no thread enters any more, by a handshake with all live threads.
    ///
    /// # Errors
    /// [`Refusal::Unknown`], [`Refusal::StillInUse`], [`Refusal::AlreadyOpen`] (something is open or waits),
    /// [`Refusal::Spent`], [`Refusal::HistoryFull`], and those of [`drive`](Safepoints::drive).
    ///
    /// # Panics
    /// Where the callback panics. The handshake is closed then, and the code may be freed: where it is, a further call
    /// answers [`Refusal::Unknown`].
    pub fn reclaim(
        &mut self,
        serial: u64,
        callback: impl FnMut(Served),
    ) -> Result<Reclaimed, Refusal> {
        // SAFETY: as in `drive`.
        Reclaimed::of(
            self.running(callback, |party, call, with| unsafe {
                sys::sp_reclaim(party, serial, call, with)
            })
            .resume(),
        )
    }

    /// Says what becomes of a code, once the handshake of its [`begin_reclaim`](Party::begin_reclaim) is closed.
    ///
    /// # Errors
    /// [`Refusal::NotWeighed`].
    pub fn end_reclaim(&mut self, serial: u64) -> Result<Reclaimed, Refusal> {
        // SAFETY: the pointer is that of a party, which this thread alone has.
        Reclaimed::of(wait(|| unsafe {
            sys::sp_reclaim_end(self.party.raw(), serial)
        }))
    }

    fn called(&mut self) -> Result<Served, Refusal> {
        let operation = answer(self.party.once(sys::sp_called_operation))?;
        let place = answer(self.party.once(sys::sp_called_place))?;
        Ok(Served {
            operation,
            kind: Kind::Handshake,
            place: place as usize,
            is_held: true,
        })
    }

    fn running(
        &mut self,
        callback: impl FnMut(Served),
        call: impl FnOnce(*mut sys::Party, sys::Callback, *mut c_void) -> i64,
    ) -> Ran {
        let party = self.party.raw();
        let ran = with_callback(callback, |run, with| call(party, run, with));
        self.hint = None;
        ran
    }
}

impl Deref for Safepoints {
    type Target = Party;

    fn deref(&self) -> &Party {
        &self.party
    }
}
