//! A party to a system: what any of them may ask.
use crate::client::Client;
use crate::refusal::Refusal;
use crate::sys;
use crate::waiting::{answer, nanoseconds, wait};
use std::cell::{Cell, UnsafeCell};
use std::fmt;
use std::os::raw::c_int;
use std::time::Duration;

/// Of which kind a request is.
#[derive(Clone, Copy, Debug, PartialEq, Eq, Hash)]
pub enum Kind {
    /// A handshake with some threads.
    Handshake,
    /// A census of all threads.
    Census,
}

impl Kind {
    pub(crate) fn of(number: c_int) -> Kind {
        if number == sys::CENSUS {
            Kind::Census
        } else {
            Kind::Handshake
        }
    }
}

/// What a handshake asks of each target.
#[derive(Clone, Copy, Debug, PartialEq, Eq, Hash)]
pub enum Ask {
    /// How many frames its stack has.
    Depth,
    /// How many of them are of the code of this serial.
    CountOf(u64),
    /// The serial of the top frame's code; 0 where that is interpreted, or there is no frame.
    Top,
}

impl Ask {
    /// The number of the ask in C, and its serial.
    fn in_c(self) -> (u32, u64) {
        match self {
            Ask::Depth => (0, 0),
            Ask::CountOf(serial) => (1, serial),
            Ask::Top => (2, 0),
        }
    }
}

/// A party to a system: what the coordinator, each client and each running thread may ask.
///
/// [`Safepoints`](crate::Safepoints), [`Client`] and [`Thread`](crate::Thread) deref to it, so each of them has these
/// calls. None of them polls or runs a callback. One that finds a lock taken waits until that is given back, and no
/// thread that is stopped keeps one.
///
/// ```
/// use safepoint::{Ask, Party, Refusal, Safepoints};
///
/// fn ask_all(party: &Party) -> Result<u64, Refusal> {
///     party.submit(&party.live()?, Ask::Depth)
/// }
///
/// let mut system = Safepoints::new(2, 4, 1)?;
/// let client = system.client()?;
/// let mut thread = system.client()?.start(|_served| {})?;
/// let asked = [ask_all(&client)?, ask_all(&thread)?, ask_all(&system)?];
/// let running = std::thread::spawn(move || {
///     asked.map(|_| system.drive(|_served| {})).into_iter().collect::<Result<Vec<u64>, _>>()
/// });
/// while !running.is_finished() {
///     thread.poll()?;
/// }
/// assert_eq!(running.join().unwrap()?, asked);
/// # Ok::<(), Refusal>(())
/// ```
///
/// A party may pass to another thread of the host, with the value that owns it. Two threads don't share one:
///
/// ```compile_fail,E0277
/// fn is_shared<T: Sync>() {}
/// is_shared::<safepoint::Party>();
/// ```
pub struct Party {
    // It may move: no call keeps where its two words are.
    raw: UnsafeCell<sys::Party>,
    /// A request found no memory, and its targets would be those of the next.
    has_old_targets: Cell<bool>,
}

// SAFETY: libsafepoint.a keeps nothing of the thread that calls. `Party` isn't `Sync`, so one thread at a time calls.
unsafe impl Send for Party {}

impl Party {
    pub(crate) fn of(raw: sys::Party) -> Party {
        Party {
            raw: UnsafeCell::new(raw),
            has_old_targets: Cell::new(false),
        }
    }

    /// What C calls with.
    pub(crate) fn raw(&self) -> *mut sys::Party {
        self.raw.get()
    }

    /// One try of a call that takes the party alone.
    pub(crate) fn once(&self, call: sys::Act) -> i64 {
        // SAFETY: the pointer is that of a party, which this thread alone has.
        unsafe { call(self.raw()) }
    }

    /// Makes another party to the system, a client, which may become a thread.
    ///
    /// # Errors
    /// [`Refusal::NoMemory`].
    pub fn client(&self) -> Result<Client, Refusal> {
        let other = Party::of(sys::Party::default());
        // SAFETY: both are parties, and they aren't the same.
        answer(unsafe { sys::sp_fork(self.raw(), other.raw()) })?;
        Ok(Client::of(other))
    }

    /// Installs a code for the method, and answers its serial. From then on no thread enters the method's code before
    /// it.
    ///
    /// # Errors
    /// [`Refusal::NoSuchMethod`], [`Refusal::TableFull`], [`Refusal::Spent`], [`Refusal::HistoryFull`],
    /// [`Refusal::NoMemory`].
    pub fn install(&self, method: u32) -> Result<u64, Refusal> {
        // SAFETY: as in `once`.
        wait(|| unsafe { sys::sp_install(self.raw(), method) })
    }

    /// Takes the code of the serial out of use: no thread enters it any more.
    ///
    /// # Errors
    /// [`Refusal::Unknown`], [`Refusal::NotInUse`].
    pub fn invalidate(&self, serial: u64) -> Result<(), Refusal> {
        // SAFETY: as in `once`.
        wait(|| unsafe { sys::sp_invalidate(self.raw(), serial) }).map(drop)
    }

    /// Submits a handshake with the threads of these names, and answers its number. It waits until the coordinator
    /// works on it; then [`reply`](Party::reply) has what each target answered.
    ///
    /// # Errors
    /// [`Refusal::Spent`], [`Refusal::QueueFull`], [`Refusal::NoTargets`], [`Refusal::BadTargets`] (a name twice, or
    /// more than 64), [`Refusal::HistoryFull`], [`Refusal::NoMemory`].
    pub fn submit(&self, names: &[u64], ask: Ask) -> Result<u64, Refusal> {
        let (asks, serial) = ask.in_c();
        // SAFETY: as in `once`.
        self.with_targets(names, |party| unsafe {
            sys::sp_submit(party, asks, serial)
        })
    }

    /// Submits a handshake with all threads that live then, and answers its number.
    ///
    /// # Errors
    /// [`Refusal::Spent`], [`Refusal::QueueFull`], [`Refusal::NoTargets`] (no thread lives),
    /// [`Refusal::HistoryFull`], [`Refusal::NoMemory`].
    pub fn submit_to_all(&self, ask: Ask) -> Result<u64, Refusal> {
        let (asks, serial) = ask.in_c();
        answer(self.once(sys::sp_target_all))?;
        // SAFETY: as in `once`.
        asked(wait(|| unsafe { sys::sp_submit(self.raw(), asks, serial) }))
    }

    /// The least number of a request that is open or waits, or None: all requests below it are closed.
    ///
    /// # Errors
    /// `safepoint.h` lists none.
    pub fn pending(&self) -> Result<Option<u64>, Refusal> {
        let number = wait(|| self.once(sys::sp_pending))?;
        Ok((number > 0).then_some(number))
    }

    /// Waits until the request of the number, and each before it, is closed.
    ///
    /// # Errors
    /// `safepoint.h` lists none.
    pub fn wait_closed(&self, number: u64) -> Result<(), Refusal> {
        // SAFETY: as in `once`.
        answer(unsafe { sys::sp_wait_closed(self.raw(), number) }).map(drop)
    }

    /// The same for so long at most.
    ///
    /// # Errors
    /// [`Refusal::Timeout`]: the time is over.
    pub fn wait_closed_for(&self, number: u64, time: Duration) -> Result<(), Refusal> {
        // SAFETY: as in `once`.
        answer(unsafe { sys::sp_wait_closed_for(self.raw(), number, nanoseconds(time)) }).map(drop)
    }

    /// Waits for so long at most until a request is open or waits, and answers the least number of these. It wakes at
    /// once where a `Party` of this crate asks.
    ///
    /// # Errors
    /// [`Refusal::Timeout`]: the time is over.
    pub fn wait_request(&self, time: Duration) -> Result<u64, Refusal> {
        // SAFETY: as in `once`.
        answer(unsafe { sys::sp_wait_request(self.raw(), nanoseconds(time)) })
    }

    /// Submits a census of all threads, and answers its number. It waits until the coordinator works on it.
    ///
    /// # Errors
    /// [`Refusal::Spent`], [`Refusal::QueueFull`], [`Refusal::HistoryFull`], [`Refusal::NoMemory`].
    pub fn census(&self) -> Result<u64, Refusal> {
        asked(wait(|| self.once(sys::sp_census)))
    }

    /// Begins to reclaim a code that no thread enters any more: submits a handshake with the threads of these names,
    /// and answers its number, or None where there is no name. Once that is closed,
    /// [`end_reclaim`](crate::Safepoints::end_reclaim) says whether the code is freed.
    /// [`reclaim`](crate::Safepoints::reclaim) does all.
    ///
    /// # Errors
    /// [`Refusal::Unknown`], [`Refusal::StillInUse`], [`Refusal::AlreadyOpen`] (something is open or waits),
    /// [`Refusal::Spent`], and those of [`submit`](Party::submit).
    pub fn begin_reclaim(&self, serial: u64, names: &[u64]) -> Result<Option<u64>, Refusal> {
        // SAFETY: as in `once`.
        let begun = self.with_targets(names, |party| unsafe {
            sys::sp_reclaim_begin(party, serial)
        })?;
        Ok(Some(begun).filter(|number| *number > 0))
    }

    /// What the thread of the name answered in an operation.
    ///
    /// # Errors
    /// [`Refusal::NotAnswered`], [`Refusal::NoMemory`].
    pub fn reply(&self, operation: u64, name: u64) -> Result<u64, Refusal> {
        // SAFETY: as in `once`.
        wait(|| unsafe { sys::sp_reply(self.raw(), operation, name) })
    }

    /// The names of the live threads, each above the one before. They are found one by one: a thread that starts or
    /// exits meanwhile may be missing or still listed.
    ///
    /// # Errors
    /// `safepoint.h` lists none.
    pub fn live(&self) -> Result<Vec<u64>, Refusal> {
        let mut names = Vec::new();
        let mut last = 0;
        loop {
            // SAFETY: as in `once`.
            last = wait(|| unsafe { sys::sp_live_after(self.raw(), last) })?;
            if last == 0 {
                return Ok(names);
            }
            names.push(last);
        }
    }

    /// Of which kind the open requests are; None where nothing is open.
    ///
    /// # Errors
    /// `safepoint.h` lists none.
    pub fn open_kind(&self) -> Result<Option<Kind>, Refusal> {
        Ok(match wait(|| self.once(sys::sp_open_kind))? {
            0 => None,
            1 => Some(Kind::Handshake),
            _ => Some(Kind::Census),
        })
    }

    /// Forgets the entries of the history so far, and the replies of operations that are closed. A history of a
    /// million entries is full.
    ///
    /// # Errors
    /// `safepoint.h` lists none.
    pub fn forget(&self) -> Result<(), Refusal> {
        wait(|| self.once(sys::sp_forget)).map(drop)
    }

    /// Makes a request of these targets.
    fn with_targets(
        &self,
        names: &[u64],
        mut request: impl FnMut(*mut sys::Party) -> i64,
    ) -> Result<u64, Refusal> {
        self.drop_old_targets()?;
        let named = names.iter().try_for_each(|name| {
            // SAFETY: as in `once`.
            answer(unsafe { sys::sp_target(self.raw(), *name) }).map(drop)
        });
        let answered = named.and_then(|()| wait(|| request(self.raw())));
        self.has_old_targets.set(answered == Err(Refusal::NoMemory));
        asked(answered)
    }

    /// A request that is refused takes the targets, except for want of memory. No code has the serial 0.
    fn drop_old_targets(&self) -> Result<(), Refusal> {
        if self.has_old_targets.get() {
            // SAFETY: as in `once`.
            let refused = wait(|| unsafe { sys::sp_reclaim_begin(self.raw(), 0) });
            if refused == Err(Refusal::NoMemory) {
                return Err(Refusal::NoMemory);
            }
            self.has_old_targets.set(false);
        }
        Ok(())
    }
}

/// A coordinator wakes that waits for requests.
fn asked(answer: Result<u64, Refusal>) -> Result<u64, Refusal> {
    // SAFETY: it takes nothing.
    unsafe { sys::sp_ring() };
    answer
}

impl fmt::Debug for Party {
    fn fmt(&self, out: &mut fmt::Formatter<'_>) -> fmt::Result {
        out.debug_struct("Party").finish_non_exhaustive()
    }
}

impl Drop for Party {
    fn drop(&mut self) {
        // SAFETY: it is a party, and nobody calls with it any more.
        unsafe { sys::sp_free(self.raw()) }
    }
}
