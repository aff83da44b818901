//! Closures as callbacks of C.
use crate::party::Kind;
use crate::refusal::Refusal;
use crate::sys;
use crate::waiting::answer;
use std::any::Any;
use std::os::raw::c_void;
use std::panic::{catch_unwind, resume_unwind, AssertUnwindSafe};
use std::ptr;

/// An operation that is served at a safe point. Of a handshake the thread of the place doesn't run, and its stack is
/// published. Of a census all live threads are held, and their stacks are published: a VM operation runs.
#[derive(Clone, Copy, Debug, PartialEq, Eq, Hash)]
pub struct Served {
    /// The number of the operation.
    pub operation: u64,
    /// A handshake, or a census.
    pub kind: Kind,
    /// The place of the thread, which [`Thread::place`](crate::Thread::place) tells; 0 of a census.
    pub place: usize,
    /// Whether the thread is held, and the coordinator runs the callback for it.
    pub is_held: bool,
}

type Panic = Box<dyn Any + Send>;

/// What C passes on as `with`.
struct Running<F> {
    callback: F,
    panic: Option<Panic>,
}

/// What a call that may run callbacks answered, and the first panic of a callback.
#[must_use]
pub struct Ran {
    said: i64,
    panic: Option<Panic>,
}

impl Ran {
    /// Of a call that ran no callback.
    pub fn of(said: i64) -> Ran {
        Ran { said, panic: None }
    }

    /// The answer of a further call, and the first panic of both.
    pub fn then(self, next: Ran) -> Ran {
        Ran {
            said: next.said,
            panic: self.panic.or(next.panic),
        }
    }

    /// The answer alone.
    pub fn answer(&self) -> Result<u64, Refusal> {
        answer(self.said)
    }

    /// The panic goes on, if there is one.
    pub fn resume_panic(self) {
        if let Some(panic) = self.panic {
            resume_unwind(panic);
        }
    }

    /// The answer, or the panic goes on.
    pub fn resume(self) -> Result<u64, Refusal> {
        let said = self.answer();
        self.resume_panic();
        said
    }
}

/// No panic unwinds into C: the first is kept, and the callback runs for the further targets too.
///
/// # Safety
/// `with` is the `Running<F>` of the call that runs this callback, and nobody else uses it meanwhile.
unsafe extern "C" fn at_safe_point<F: FnMut(Served)>(
    with: *mut c_void,
    served: *const sys::Served,
) {
    // SAFETY: C passes `with` on as it is, and a `struct sp_served` that it has made.
    let (running, served) = unsafe { (&mut *with.cast::<Running<F>>(), &*served) };
    let served = Served {
        operation: served.operation,
        kind: Kind::of(served.kind),
        place: served.place,
        is_held: served.thread.is_null(),
    };
    // (a closure that panicked is run again, as one behind `&mut` may be)
    let ran = catch_unwind(AssertUnwindSafe(|| (running.callback)(served)));
    if let Err(panic) = ran {
        running.panic.get_or_insert(panic);
    }
}

/// Makes a call of C that runs the callback.
pub fn with_callback<F: FnMut(Served)>(
    callback: F,
    call: impl FnOnce(sys::Callback, *mut c_void) -> i64,
) -> Ran {
    let mut running = Running {
        callback,
        panic: None,
    };
    let said = call(at_safe_point::<F>, ptr::from_mut(&mut running).cast());
    Ran {
        said,
        panic: running.panic,
    }
}
