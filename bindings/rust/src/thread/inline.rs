//! Polls in line, frames that no closure ends, and coroutines.
use super::Thread;
use crate::callback::{with_callback, Ran};
use crate::party::Party;
use crate::refusal::Refusal;
use crate::sys;
use crate::waiting::answer;
use std::ptr::NonNull;
use std::sync::atomic::{AtomicU32, Ordering};

/// The word of an exited thread.
static SLOW: AtomicU32 = AtomicU32::new(1);

pub(super) fn slow_word() -> NonNull<AtomicU32> {
    NonNull::from(&SLOW)
}

/// The word that code of the party's thread tests.
pub(super) fn word_of(party: &Party) -> NonNull<AtomicU32> {
    // SAFETY: the pointer is that of a party.
    let word = unsafe { sys::sp_poll_word(party.raw()) };
    NonNull::new(word.cast_mut().cast()).unwrap_or(slow_word())
}

impl Thread<'_> {
    /// Polls: a safe point, where the thread serves the operations that wait for it. Loops call it at each turn.
    ///
    /// It is a poll in line: it loads a word, and calls [`back_edge`](Thread::back_edge) where that isn't 0. The word
    /// is 0 while no coordinator works on a request, so no stop is missed that [`Safepoints`](crate::Safepoints)
    /// makes.
    ///
    /// # Errors
    /// `safepoint.h` lists none for a running thread. [`Refusal::NotThis`] where it has exited.
    ///
    /// # Panics
    /// Where a callback panics. The thread may go on then.
    #[inline]
    pub fn poll(&mut self) -> Result<(), Refusal> {
        // SAFETY: the word is there as long as the party is.
        match unsafe { self.word.as_ref() }.load(Ordering::Relaxed) {
            0 => Ok(()),
            _ => self.back_edge(),
        }
    }

    /// Polls by a call, whatever the word says: the slow way of a poll in machine code.
    ///
    /// # Errors
    /// Those of [`poll`](Thread::poll).
    ///
    /// # Panics
    /// As [`poll`](Thread::poll).
    #[cold]
    pub fn back_edge(&mut self) -> Result<(), Refusal> {
        let polled = self.party.once(sys::sp_back_edge);
        self.stopped_by(polled).resume().map(drop)
    }

    /// The address of the word that machine code of this thread tests by a load of 32 bits: 0 to go on, else it calls
    /// [`back_edge`](Thread::back_edge). It is good as long as the `Thread` lives and hasn't exited.
    pub fn poll_word(&self) -> *const u32 {
        self.word.as_ptr().cast()
    }

    /// How many methods the thread has entered and not left.
    pub fn depth(&self) -> usize {
        self.depth
    }

    /// Leaves methods, the top one first, until at most so many are left: for the errors and exceptions of an
    /// interpreter or of machine code, which end several methods at once. It polls after each, as
    /// [`leave`](Thread::leave).
    ///
    /// ```
    /// # use safepoint::Safepoints;
    /// # let system = Safepoints::new(1, 1, 1)?;
    /// # let mut thread = system.client()?.start(|_served| {})?;
    /// thread.enter(0)?;
    /// let catches = thread.depth();
    /// for _ in 0..10 {
    ///     thread.enter(0)?;
    /// }
    /// thread.unwind_to(catches)?;
    /// assert_eq!(thread.depth(), 1);
    /// # Ok::<(), safepoint::Refusal>(())
    /// ```
    ///
    /// # Errors
    /// [`Refusal::Illegal`] where the thread is [suspended](Thread::suspend) and a method would have to go.
    ///
    /// # Panics
    /// Where a callback panics. The methods are left then.
    pub fn unwind_to(&mut self, depth: usize) -> Result<(), Refusal> {
        self.leave_down_to(depth).resume().map(drop)
    }

    /// Puts the thread into native code until [`resume`](Thread::resume), or until another thread
    /// [switches](Thread::switch_to) to it. So several coroutines, each with a `Thread` of its own, take turns on one
    /// thread of the host. Meanwhile the coordinator may hold this one and serve for it.
    ///
    /// While it is suspended no method is left, and other calls of a running thread are refused. A `Thread` that is
    /// dropped comes back first.
    ///
    /// # Errors
    /// [`Refusal::Illegal`] where it is suspended already, [`Refusal::NotThis`] where it has exited.
    pub fn suspend(&mut self) -> Result<(), Refusal> {
        answer(self.party.once(sys::sp_enter_native)).map(drop)
    }

    /// Brings a suspended thread back, once it isn't held, and serves what stops it.
    ///
    /// # Errors
    /// [`Refusal::Illegal`] where it isn't suspended, [`Refusal::NotThis`] where it has exited.
    ///
    /// # Panics
    /// Where a callback panics. It has come back then.
    pub fn resume(&mut self) -> Result<(), Refusal> {
        self.serving(sys::sp_leave_native).resume().map(drop)
    }

    /// Suspends this thread and resumes the other.
    ///
    /// ```
    /// # use safepoint::Safepoints;
    /// # let system = Safepoints::new(2, 1, 1)?;
    /// let mut first = system.client()?.start(|_served| {})?;
    /// first.suspend()?;
    /// let mut second = system.client()?.start(|_served| {})?;
    /// for _ in 0..10 {
    ///     second.poll()?;
    ///     second.switch_to(&mut first)?;
    ///     first.poll()?;
    ///     first.switch_to(&mut second)?;
    /// }
    /// # Ok::<(), safepoint::Refusal>(())
    /// ```
    ///
    /// # Errors
    /// [`Refusal::Illegal`] unless the other is suspended and this one isn't; [`Refusal::NotThis`] where one has
    /// exited. Nothing has changed then.
    ///
    /// # Panics
    /// Where a callback of the other panics. It has come back then.
    pub fn switch_to(&mut self, other: &mut Thread<'_>) -> Result<(), Refusal> {
        let (from, to) = (self.party.raw(), other.party.raw());
        // SAFETY: both pointers are those of parties, which this thread alone has, and the callback can't reach them.
        with_callback(&mut other.callback, |call, with| unsafe {
            sys::sp_switch(from, to, call, with)
        })
        .resume()
        .map(drop)
    }

    pub(super) fn brought_back(&mut self) -> Ran {
        match self.party.once(sys::sp_state) {
            sys::IN_NATIVE => self.serving(sys::sp_leave_native),
            _ => Ran::of(0),
        }
    }
}
