//! The threads of a system.
mod inline;

use crate::callback::{with_callback, Ran, Served};
use crate::client::Client;
use crate::party::Party;
use crate::refusal::Refusal;
use crate::sys;
use crate::waiting::answer;
use std::fmt;
use std::marker::PhantomData;
use std::mem;
use std::ops::Deref;
use std::ptr::NonNull;
use std::sync::atomic::AtomicU32;

/// A running thread of the system. It stays with the thread of the host that started it, and exits where it is dropped.
///
/// It asks what any [`Party`] may ask.
///
/// **Bodies that panic.** A method, native code, a wait and a part in the VM are left where the body panics: the stop
/// that this needs is served, and then the panic goes on. A `Thread` that is dropped leaves its methods and exits, also
/// where a panic drops it. So no request waits for a thread whose closure has panicked.
///
/// **Callbacks that panic.** No panic unwinds into C. The thread serves on, with the callback for each further
/// operation. Once it may go on, the first panic goes on out of the call that polled. Where another panic goes on
/// already, or the `Thread` is dropped, it goes no further than the panic hook, which has told of it: a drop never
/// panics. Call [`exit`](Thread::exit) where it must go on.
///
/// A `Thread` that is forgotten ([`std::mem::forget`]) keeps its place, and each request of its name waits for it.
///
/// ```
/// use safepoint::{Refusal, Safepoints};
///
/// let mut system = Safepoints::new(1, 1, 1)?;
/// let client = system.client()?;
/// let running = std::thread::spawn(move || {
///     let mut thread = client.start(|_served| {})?;
///     thread.call(0, |_thread| -> Result<(), Refusal> { panic!("in a method") })
/// });
/// assert!(running.join().is_err());
/// assert_eq!(system.live()?, []);
/// # Ok::<(), Refusal>(())
/// ```
///
/// It doesn't pass to another thread of the host, and two don't share it:
///
/// ```compile_fail,E0277
/// fn may_pass<T: Send>() {}
/// may_pass::<safepoint::Thread<'static>>();
/// ```
///
/// ```compile_fail,E0277
/// fn is_shared<T: Sync>() {}
/// is_shared::<safepoint::Thread<'static>>();
/// ```
pub struct Thread<'a> {
    party: Party,
    name: u64,
    place: usize,
    /// How many methods it has entered and not left.
    depth: usize,
    /// What its polls test; of an exited thread a word that sends each poll the slow way.
    word: NonNull<AtomicU32>,
    callback: Box<dyn FnMut(Served) + 'a>,
    stays: PhantomData<*mut ()>,
}

impl<'a> Thread<'a> {
    /// Starts the calling thread, or gives the party back.
    pub(crate) fn started(
        party: Party,
        mut callback: Box<dyn FnMut(Served) + 'a>,
    ) -> Result<Thread<'a>, (Refusal, Party)> {
        let ran = serving(&party, &mut callback, sys::sp_start_thread);
        let name = match ran.answer() {
            Ok(name) => name,
            Err(refusal) => return Err((refusal, party)),
        };
        let thread = Thread {
            name,
            place: party.once(sys::sp_place) as usize,
            depth: 0,
            word: inline::word_of(&party),
            party,
            callback,
            stays: PhantomData,
        };
        // Where a callback panicked, the thread exits here.
        ran.resume_panic();
        Ok(thread)
    }

    /// The name, which no other thread of the system ever has.
    pub fn name(&self) -> u64 {
        self.name
    }

    /// The place, below the number of places of the system. No other live thread has it, and [`Served::place`] names
    /// the thread by it.
    pub fn place(&self) -> usize {
        self.place
    }

    /// Enters a method, runs the body, and leaves the method. Where the body is refused something, that is answered.
    ///
    /// ```
    /// # use safepoint::Safepoints;
    /// # let system = Safepoints::new(1, 1, 2)?;
    /// # let mut thread = system.client()?.start(|_served| {})?;
    /// let sum = thread.call(0, |thread| {
    ///     let mut sum = 0;
    ///     for i in 0..10 {
    ///         sum += thread.call(1, |_thread| Ok(i))?;
    ///         thread.poll()?;
    ///     }
    ///     Ok(sum)
    /// })?;
    /// assert_eq!(sum, 45);
    /// # Ok::<(), safepoint::Refusal>(())
    /// ```
    ///
    /// # Errors
    /// What the body is refused, and those of [`enter`](Thread::enter).
    ///
    /// # Panics
    /// Where the body panics, or a callback that runs as the method is left. The method is left then.
    pub fn call<T>(
        &mut self,
        method: u32,
        body: impl FnOnce(&mut Self) -> Result<T, Refusal>,
    ) -> Result<T, Refusal> {
        self.call_with(method, |thread, _serial| body(thread))
    }

    /// Enters a method, as [`call`](Thread::call). The body gets the serial of the code to run, 0 where the method is
    /// interpreted: nobody frees that code before the method is left.
    ///
    /// # Errors
    /// Those of [`call`](Thread::call).
    ///
    /// # Panics
    /// As [`call`](Thread::call).
    pub fn call_with<T>(
        &mut self,
        method: u32,
        body: impl FnOnce(&mut Self, u64) -> Result<T, Refusal>,
    ) -> Result<T, Refusal> {
        let depth = self.depth;
        let serial = self.enter(method)?;
        self.within(
            |thread| thread.leave_down_to(depth),
            |thread| body(thread, serial),
        )
    }

    /// Enters a method until [`leave`](Thread::leave), for an interpreter whose frames are no closures, and for
    /// machine code. It answers the serial of the code to run, 0 where the method is interpreted: nobody frees that
    /// code before the method is left. A [`call`](Thread::call) leaves at its end what was entered in it, and a
    /// `Thread` that is dropped leaves all.
    ///
    /// # Errors
    /// [`Refusal::NoSuchMethod`], [`Refusal::DepthFull`] (256 frames).
    pub fn enter(&mut self, method: u32) -> Result<u64, Refusal> {
        // SAFETY: the pointer is that of a party, which this thread alone has.
        let serial = answer(unsafe { sys::sp_call(self.party.raw(), method) })?;
        self.depth += 1;
        Ok(serial)
    }

    /// Leaves the top method, and polls.
    ///
    /// # Errors
    /// [`Refusal::EmptyStack`].
    ///
    /// # Panics
    /// Where a callback panics. The method is left then.
    pub fn leave(&mut self) -> Result<(), Refusal> {
        self.leave_top().resume().map(drop)
    }

    /// Publishes which codes have frames on the stack. Call it now and then: it lets old code be freed sooner.
    ///
    /// # Errors
    /// `safepoint.h` lists none for a thread that hasn't exited.
    pub fn publish(&mut self) -> Result<(), Refusal> {
        answer(self.party.once(sys::sp_publish)).map(drop)
    }

    /// Runs the body in the VM, where the thread doesn't poll: whoever waits for this thread waits for the body.
    ///
    /// # Errors
    /// `safepoint.h` lists none for a thread that hasn't exited.
    ///
    /// # Panics
    /// Where the body panics, or a callback that runs as the thread comes back. It has come back then.
    pub fn in_vm<T>(&mut self, body: impl FnOnce() -> T) -> Result<T, Refusal> {
        self.within_vm(|_| Ok(body()))
    }

    /// Runs the body in native code: meanwhile the coordinator may hold the thread and serve for it. The thread comes
    /// back once it isn't held. The body touches nothing that callbacks touch.
    ///
    /// ```
    /// # use safepoint::{Ask, Safepoints};
    /// # let mut system = Safepoints::new(1, 1, 1)?;
    /// # let mut thread = system.client()?.start(|_served| {})?;
    /// system.submit(&[thread.name()], Ask::Depth)?;
    /// let closed = thread.in_native(|| system.drive(|served| assert!(served.is_held)))?;
    /// assert_eq!(closed, Ok(1));
    /// # Ok::<(), safepoint::Refusal>(())
    /// ```
    ///
    /// # Errors
    /// `safepoint.h` lists none for a thread that hasn't exited.
    ///
    /// # Panics
    /// Where the body panics, or a callback that runs as the thread comes back. It has come back then.
    pub fn in_native<T>(&mut self, body: impl FnOnce() -> T) -> Result<T, Refusal> {
        answer(self.party.once(sys::sp_enter_native))?;
        self.within(
            |thread| thread.serving(sys::sp_leave_native),
            |_| Ok(body()),
        )
    }

    /// Runs the body, a wait inside the runtime: meanwhile the coordinator may hold the thread and serve for it, as in
    /// [`in_native`](Thread::in_native). A body that asks has a [`client`](Party::client) of its own.
    ///
    /// # Errors
    /// `safepoint.h` lists none for a thread that hasn't exited.
    ///
    /// # Panics
    /// Where the body panics, or a callback that runs as the thread comes back. It has come back then.
    pub fn blocked<T>(&mut self, body: impl FnOnce() -> T) -> Result<T, Refusal> {
        self.within_vm(|thread| {
            answer(thread.party.once(sys::sp_enter_blocked))?;
            thread.within(
                |thread| thread.serving(sys::sp_leave_blocked),
                |_| Ok(body()),
            )
        })
    }

    /// Leaves all methods, exits, and answers the client again, which may start as another thread.
    ///
    /// ```
    /// # use safepoint::Safepoints;
    /// # let system = Safepoints::new(1, 1, 1)?;
    /// let first = system.client()?.start(|_served| {})?;
    /// let client = first.into_client()?;
    /// assert_eq!(client.start(|_served| {})?.name(), 2);
    /// # Ok::<(), safepoint::Refusal>(())
    /// ```
    ///
    /// # Errors
    /// `safepoint.h` lists none.
    ///
    /// # Panics
    /// Where a callback panics. The thread has exited then, and the client is gone.
    pub fn into_client(mut self) -> Result<Client, Refusal> {
        if self.party.once(sys::sp_name) > 0 {
            let left = self.leave_down_to(0);
            left.then(self.serving(sys::sp_exit_thread)).resume()?;
        }
        let none = Party::of(sys::Party::default());
        Ok(Client::of(mem::replace(&mut self.party, none)))
    }

    /// Exits at once. Each later call of a thread answers [`Refusal::NotThis`], and the value still asks what any
    /// [`Party`] may ask.
    ///
    /// # Errors
    /// [`Refusal::StackNotEmpty`] in a method; [`Refusal::NotThis`] where it has exited.
    ///
    /// # Panics
    /// Where a callback panics. The thread has exited then.
    pub fn exit(&mut self) -> Result<(), Refusal> {
        let ran = self.serving(sys::sp_exit_thread);
        if ran.answer().is_ok() {
            self.word = inline::slow_word();
        }
        ran.resume().map(drop)
    }

    fn within_vm<T>(
        &mut self,
        body: impl FnOnce(&mut Self) -> Result<T, Refusal>,
    ) -> Result<T, Refusal> {
        answer(self.party.once(sys::sp_to_vm))?;
        self.within(
            |thread| {
                let polled = thread.party.once(sys::sp_from_vm);
                thread.stopped_by(polled)
            },
            body,
        )
    }

    /// Runs the body, then leaves what it ran in, also where it panics. A panic of the body goes on, and else one of a
    /// callback; a refusal of the body is answered, and else one of leaving.
    fn within<T>(
        &mut self,
        leave: impl FnMut(&mut Self) -> Ran,
        body: impl FnOnce(&mut Self) -> Result<T, Refusal>,
    ) -> Result<T, Refusal> {
        let mut left = Ran::of(0);
        let scope = Scope {
            thread: self,
            leave,
            left: &mut left,
        };
        let said = body(scope.thread);
        drop(scope);
        let left = left.resume();
        said.and_then(|value| left.map(|_| value))
    }

    fn leave_down_to(&mut self, depth: usize) -> Ran {
        let mut ran = Ran::of(0);
        while self.depth > depth && ran.answer().is_ok() {
            ran = ran.then(self.leave_top());
        }
        ran
    }

    fn leave_top(&mut self) -> Ran {
        let polled = self.party.once(sys::sp_ret);
        if polled >= 0 {
            self.depth -= 1;
        }
        self.stopped_by(polled)
    }

    /// Behind a poll: where this stopped the thread, it serves until it may go on.
    fn stopped_by(&mut self, polled: i64) -> Ran {
        match polled {
            1.. => self.serving(sys::sp_stop),
            said => Ran::of(said),
        }
    }

    fn serving(&mut self, act: sys::Stopping) -> Ran {
        serving(&self.party, &mut self.callback, act)
    }
}

fn serving(party: &Party, callback: &mut dyn FnMut(Served), act: sys::Stopping) -> Ran {
    // SAFETY: the pointer is that of a party, which this thread alone has, and the callback can't reach it.
    with_callback(callback, |call, with| unsafe {
        act(party.raw(), call, with)
    })
}

/// What a body runs in. Its end leaves that, also where the body panics.
struct Scope<'t, 'a, L: FnMut(&mut Thread<'a>) -> Ran> {
    thread: &'t mut Thread<'a>,
    leave: L,
    left: &'t mut Ran,
}

impl<'a, L: FnMut(&mut Thread<'a>) -> Ran> Drop for Scope<'_, 'a, L> {
    fn drop(&mut self) {
        *self.left = (self.leave)(self.thread);
    }
}

impl Deref for Thread<'_> {
    type Target = Party;

    fn deref(&self) -> &Party {
        &self.party
    }
}

impl fmt::Debug for Thread<'_> {
    fn fmt(&self, out: &mut fmt::Formatter<'_>) -> fmt::Result {
        out.debug_struct("Thread")
            .field("name", &self.name)
            .field("place", &self.place)
            .finish_non_exhaustive()
    }
}

impl Drop for Thread<'_> {
    /// Comes back from native code, leaves all methods and exits. A thread that doesn't exit keeps its place, and each request of its name waits for
    /// it; no call of this crate leaves a thread so.
    fn drop(&mut self) {
        if self.party.once(sys::sp_name) <= 0 {
            return;
        }
        let back = self.brought_back();
        let left = back.then(self.leave_down_to(0));
        if let Err(refusal) = left.then(self.serving(sys::sp_exit_thread)).answer() {
            eprintln!("thread {} doesn't exit: {refusal}", self.name);
        }
    }
}
