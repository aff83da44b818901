//! A system as a value that threads share.
use crate::client::Client;
use crate::party::Party;
use crate::refusal::Refusal;
use crate::sys;
use crate::waiting::answer;
use std::cell::UnsafeCell;
use std::fmt;
use std::mem;
use std::ptr::{self, NonNull};
use std::sync::atomic::{fence, AtomicUsize, Ordering};

/// A system that any thread of the host may join at any time, also while the coordinator works. Threads share it, or
/// each has a clone.
///
/// It keeps the system, and no thread: [`Safepoints`](crate::Safepoints) works on what is asked, and after that is
/// dropped nobody does.
///
/// ```
/// use safepoint::{Refusal, Safepoints};
/// use std::thread;
///
/// let mut safepoints = Safepoints::new(4, 4, 1)?;
/// let running: Vec<_> = (0..4)
///     .map(|_| safepoints.system())
///     .map(|system| thread::spawn(move || {
///         let mut thread = system.join()?.start(|_served| {})?;
///         thread.poll()
///     }))
///     .collect();
/// safepoints.census()?;
/// safepoints.drive(|_served| {})?;
/// for it in running {
///     it.join().unwrap()?;
/// }
/// # Ok::<(), Refusal>(())
/// ```
///
/// ```
/// fn is_shared<T: Clone + Send + Sync>() {}
/// is_shared::<safepoint::System>();
/// ```
pub struct System {
    raw: NonNull<Shared>,
}

/// It stays at its place. `Arc` isn't it, since an `Arc` that finds no memory ends the process.
struct Shared {
    system: UnsafeCell<sys::System>,
    owners: AtomicUsize,
}

// SAFETY: after it is made, `sp_system_join` alone is called with it, which any thread may do at any time.
unsafe impl Send for System {}
// SAFETY: as above.
unsafe impl Sync for System {}

impl System {
    /// Makes a system, and answers its coordinator's party too.
    pub(crate) fn new(
        places: usize,
        slots: usize,
        methods: usize,
    ) -> Result<(System, Party), Refusal> {
        let mut room = Vec::new();
        room.try_reserve_exact(1).map_err(|_| Refusal::NoMemory)?;
        room.push(Shared {
            system: UnsafeCell::new(sys::System::default()),
            owners: AtomicUsize::new(1),
        });
        let raw = NonNull::from(Box::leak(room.into_boxed_slice())).cast();
        let system = System { raw };
        let at = system.at();
        // SAFETY: the pointer is that of a system, which isn't made yet.
        answer(unsafe { sys::sp_system_make(at, places, slots, methods) })?;
        // SAFETY: nobody else has the system, which is made. From here on the coordinator's party is here alone.
        let coordinator = mem::take(unsafe { &mut *sys::sp_system_coordinator(at) });
        Ok((system, Party::of(coordinator)))
    }

    fn shared(&self) -> &Shared {
        // SAFETY: this owner keeps it.
        unsafe { self.raw.as_ref() }
    }

    fn at(&self) -> *mut sys::System {
        self.shared().system.get()
    }

    /// Makes another party to the system, a client, which may become a thread.
    ///
    /// # Errors
    /// [`Refusal::NoMemory`]. [`Refusal::NotThis`] in a forked child of the process that made the system.
    pub fn join(&self) -> Result<Client, Refusal> {
        let other = Party::of(sys::Party::default());
        // SAFETY: the pointers are those of a system, with which any thread may make this call, and of a party.
        answer(unsafe { sys::sp_system_join(self.at(), other.raw()) })?;
        Ok(Client::of(other))
    }
}

impl fmt::Debug for System {
    fn fmt(&self, out: &mut fmt::Formatter<'_>) -> fmt::Result {
        out.debug_struct("System").finish_non_exhaustive()
    }
}

impl Clone for System {
    fn clone(&self) -> System {
        self.shared().owners.fetch_add(1, Ordering::Relaxed);
        System { raw: self.raw }
    }
}

impl Drop for System {
    fn drop(&mut self) {
        if self.shared().owners.fetch_sub(1, Ordering::Release) > 1 {
            return;
        }
        fence(Ordering::Acquire);
        // SAFETY: the pointer is that of a system, and this was its last owner.
        unsafe { sys::sp_system_free(self.at()) };
        let room = ptr::slice_from_raw_parts_mut(self.raw.as_ptr(), 1);
        // SAFETY: `new` leaked it as a slice of one.
        drop(unsafe { Box::from_raw(room) });
    }
}
