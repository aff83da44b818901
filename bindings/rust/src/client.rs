//! A party that is no thread, and its start.
use crate::callback::Served;
use crate::party::Party;
use crate::refusal::Refusal;
use crate::thread::Thread;
use std::error::Error;
use std::fmt;
use std::ops::Deref;

/// A party to a system that is no thread: it asks what any [`Party`] may ask, and nobody stops it. It becomes a thread
/// by [`start`](Client::start).
///
/// It may pass to another thread of the host, and two don't share it:
///
/// ```
/// fn may_pass<T: Send>() {}
/// may_pass::<safepoint::Client>();
/// ```
///
/// ```compile_fail,E0277
/// fn is_shared<T: Sync>() {}
/// is_shared::<safepoint::Client>();
/// ```
#[derive(Debug)]
pub struct Client {
    party: Party,
}

impl Client {
    pub(crate) fn of(party: Party) -> Client {
        Client { party }
    }

    /// Starts the calling thread of the host as a thread of the system. It runs the callback for each operation that
    /// it serves itself. The start polls, so the callback may run in this call.
    ///
    /// While a census is open, the call waits. So a thread that works on a census by
    /// [`advance`](crate::Safepoints::advance) doesn't start before that is closed.
    ///
    /// A callback makes no call that waits for another thread, and stops neither its own nor another party.
    ///
    /// # Errors
    /// The refusal, with the client, which may start later: [`Refusal::PlacesFull`], [`Refusal::Spent`],
    /// [`Refusal::HistoryFull`], [`Refusal::NoMemory`].
    ///
    /// # Panics
    /// Where the callback panics. The thread has exited then.
    pub fn start<'a>(self, callback: impl FnMut(Served) + 'a) -> Result<Thread<'a>, StartError> {
        Thread::started(self.party, Box::new(callback)).map_err(|(refusal, party)| StartError {
            refusal,
            client: Client { party },
        })
    }
}

impl Deref for Client {
    type Target = Party;

    fn deref(&self) -> &Party {
        &self.party
    }
}

/// Why a client isn't started, with the client.
///
/// A host with more threads than its system has places tries again:
///
/// ```
/// use safepoint::{Refusal, Safepoints};
///
/// # let system = Safepoints::new(1, 1, 1)?;
/// let mut callback = |_served| {};
/// let mut client = system.client()?;
/// let mut thread = loop {
///     match client.start(&mut callback) {
///         Ok(thread) => break thread,
///         Err(refused) if refused.refusal() == Refusal::PlacesFull => client = refused.into_inner(),
///         Err(refused) => return Err(refused.into()),
///     }
///     std::thread::yield_now();
/// };
/// thread.poll()?;
/// # Ok::<(), Refusal>(())
/// ```
///
/// Where nobody wants the client back, `?` makes a [`Refusal`] of it.
#[derive(Debug)]
pub struct StartError {
    refusal: Refusal,
    client: Client,
}

// SAFETY: who shares one reads the refusal alone; the client comes out by value.
unsafe impl Sync for StartError {}

impl StartError {
    /// Why the client isn't started.
    pub fn refusal(&self) -> Refusal {
        self.refusal
    }

    /// The client, which may start later.
    pub fn into_inner(self) -> Client {
        self.client
    }

    /// The refusal and the client.
    pub fn into_parts(self) -> (Refusal, Client) {
        (self.refusal, self.client)
    }
}

impl fmt::Display for StartError {
    fn fmt(&self, out: &mut fmt::Formatter<'_>) -> fmt::Result {
        write!(out, "the thread doesn't start: {}", self.refusal)
    }
}

impl Error for StartError {}

impl From<StartError> for Refusal {
    fn from(error: StartError) -> Refusal {
        error.refusal
    }
}
