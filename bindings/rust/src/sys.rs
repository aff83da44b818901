//! What libsafepoint.a and libsafepoint_wait.a export. `safepoint.h` and `safepoint_wait.h`, in
//! `crates/safepoint/include`, say what each call does and answers.
use std::os::raw::{c_int, c_uint, c_void};
use std::ptr;

#[repr(C)]
#[derive(Debug)]
pub struct Party {
    pub made: bool,
    pub at: *mut c_void,
}

impl Default for Party {
    fn default() -> Party {
        Party {
            made: false,
            at: ptr::null_mut(),
        }
    }
}

/// A system that threads share: all zeros at first.
#[repr(C)]
pub struct System {
    coordinator: Party,
    source: Party,
    at: *mut c_void,
    next: *mut System,
    lock: c_uint,
}

impl Default for System {
    fn default() -> System {
        System {
            coordinator: Party::default(),
            source: Party::default(),
            at: ptr::null_mut(),
            next: ptr::null_mut(),
            lock: 0,
        }
    }
}

#[repr(C)]
pub struct Served {
    pub operation: u64,
    pub place: usize,
    pub thread: *mut Party,
    pub kind: c_int,
}

/// The kind of a census; a handshake's is 1.
pub const CENSUS: c_int = 2;

/// The state of a thread in native code.
pub const IN_NATIVE: i64 = 3;

/// How long a loop has waited: all zeros at first.
#[repr(C)]
#[derive(Default)]
pub struct Pause {
    turns: c_uint,
    seen: c_uint,
}

pub type Callback = unsafe extern "C" fn(with: *mut c_void, served: *const Served);

/// A call that takes the party alone.
pub type Act = unsafe extern "C" fn(*mut Party) -> i64;

/// A call that may stop the thread, and runs its callback then.
pub type Stopping = unsafe extern "C" fn(*mut Party, Callback, *mut c_void) -> i64;

extern "C" {
    pub fn sp_fork(party: *mut Party, other: *mut Party) -> i64;
    pub fn sp_free(party: *mut Party);
    pub fn sp_target_all(party: *mut Party) -> i64;
    pub fn sp_pending(party: *mut Party) -> i64;
    pub fn sp_wait_closed(party: *mut Party, number: u64) -> i64;
    pub fn sp_at_safepoint(coordinator: *mut Party, call: Callback, with: *mut c_void) -> i64;
    pub fn sp_name(thread: *mut Party) -> i64;
    pub fn sp_place(thread: *mut Party) -> i64;
    pub fn sp_state(thread: *mut Party) -> i64;
    pub fn sp_call(thread: *mut Party, method: u32) -> i64;
    pub fn sp_ret(thread: *mut Party) -> i64;
    pub fn sp_back_edge(thread: *mut Party) -> i64;
    pub fn sp_publish(thread: *mut Party) -> i64;
    pub fn sp_to_vm(thread: *mut Party) -> i64;
    pub fn sp_from_vm(thread: *mut Party) -> i64;
    pub fn sp_target(party: *mut Party, name: u64) -> i64;
    pub fn sp_submit(party: *mut Party, asks: u32, serial: u64) -> i64;
    pub fn sp_census(party: *mut Party) -> i64;
    pub fn sp_install(party: *mut Party, method: u32) -> i64;
    pub fn sp_invalidate(party: *mut Party, serial: u64) -> i64;
    pub fn sp_reply(party: *mut Party, operation: u64, name: u64) -> i64;
    pub fn sp_live_after(party: *mut Party, name: u64) -> i64;
    pub fn sp_open_kind(party: *mut Party) -> i64;
    pub fn sp_forget(party: *mut Party) -> i64;
    pub fn sp_advance(coordinator: *mut Party) -> i64;
    pub fn sp_called_operation(coordinator: *mut Party) -> i64;
    pub fn sp_called_place(coordinator: *mut Party) -> i64;
    pub fn sp_awaited(coordinator: *mut Party) -> i64;
    pub fn sp_counted(coordinator: *mut Party, serial: u64) -> i64;
    pub fn sp_reclaim_begin(party: *mut Party, serial: u64) -> i64;
    pub fn sp_reclaim_end(coordinator: *mut Party, serial: u64) -> i64;
}

/// A thread that a stop awaits.
#[repr(C)]
#[derive(Clone, Copy, Default)]
pub struct LateThread {
    pub name: u64,
    pub place: usize,
    pub state: c_int,
    pub operation: u64,
}

/// The states of a late thread of which something is known.
pub const LATE_RUNS: c_int = 1;
pub const LATE_SERVES: c_int = 2;

/// How many powers of two have a count.
pub const POWERS: usize = 64;

#[repr(C)]
pub struct Times {
    pub sum: u64,
    pub greatest: u64,
    pub powers: [u64; POWERS],
}

#[repr(C)]
pub struct Statistics {
    pub handshakes: u64,
    pub censuses: u64,
    pub to_handshake: Times,
    pub to_safepoint: Times,
    pub callbacks: Times,
    pub spins: u64,
    pub yields: u64,
    pub naps: u64,
    pub wakes: u64,
}

// Of libsafepoint_wait.a.
extern "C" {
    pub fn sp_drive_for(
        coordinator: *mut Party,
        call: Callback,
        with: *mut c_void,
        nanoseconds: u64,
    ) -> i64;
    pub fn sp_wait_closed_for(party: *mut Party, number: u64, nanoseconds: u64) -> i64;
    pub fn sp_wait_request(party: *mut Party, nanoseconds: u64) -> i64;
    pub fn sp_late(coordinator: *mut Party, list: *mut LateThread, room: usize) -> i64;
    pub fn sp_stats_on(on: bool);
    pub fn sp_stats(stats: *mut Statistics);
    pub fn sp_again(answer: i64, pause: *mut Pause) -> bool;
    pub fn sp_ring();
    pub fn sp_system_make(system: *mut System, places: usize, slots: usize, methods: usize) -> i64;
    pub fn sp_system_coordinator(system: *mut System) -> *mut Party;
    pub fn sp_system_join(system: *mut System, party: *mut Party) -> i64;
    pub fn sp_system_free(system: *mut System);
    pub fn sp_stop(thread: *mut Party, call: Callback, with: *mut c_void) -> i64;
    pub fn sp_start_thread(thread: *mut Party, call: Callback, with: *mut c_void) -> i64;
    pub fn sp_exit_thread(thread: *mut Party, call: Callback, with: *mut c_void) -> i64;
    pub fn sp_enter_native(thread: *mut Party) -> i64;
    pub fn sp_leave_native(thread: *mut Party, call: Callback, with: *mut c_void) -> i64;
    pub fn sp_enter_blocked(thread: *mut Party) -> i64;
    pub fn sp_leave_blocked(thread: *mut Party, call: Callback, with: *mut c_void) -> i64;
    pub fn sp_polls_begin();
    pub fn sp_polls_end();
    pub fn sp_poll_word(thread: *const Party) -> *const u32;
    pub fn sp_switch(from: *mut Party, to: *mut Party, call: Callback, with: *mut c_void) -> i64;
    pub fn sp_drive(coordinator: *mut Party, call: Callback, with: *mut c_void) -> i64;
    pub fn sp_drive_four(coordinator: *mut Party, call: Callback, with: *mut c_void) -> i64;
    pub fn sp_reclaim(
        coordinator: *mut Party,
        serial: u64,
        call: Callback,
        with: *mut c_void,
    ) -> i64;
}
