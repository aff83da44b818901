//! What the tests share.
#![allow(dead_code)]
use safepoint::{Client, Refusal, Safepoints, Thread};
use std::io::{self, Write};
use std::panic::{catch_unwind, resume_unwind, AssertUnwindSafe};
use std::sync::atomic::{AtomicBool, Ordering};
use std::sync::mpsc::{self, RecvTimeoutError, Sender};
use std::thread;
use std::time::Duration;

/// How many threads each test has in turn.
pub const COUNTS: [usize; 3] = [1, 4, 16];

const LIMIT: Duration = Duration::from_secs(300);

/// A test ends within this value's life, or the program ends: a wait that never ends can't be ended alone.
pub struct InTime {
    _done: Sender<()>,
}

pub fn in_time() -> InTime {
    let name = thread::current().name().unwrap_or("a test").to_string();
    let (done, is_done) = mpsc::channel();
    thread::spawn(move || {
        if is_done.recv_timeout(LIMIT) == Err(RecvTimeoutError::Timeout) {
            // (what `eprintln` writes is kept until the test ends)
            let seconds = LIMIT.as_secs();
            let _ = writeln!(io::stderr(), "{name} hasn't ended after {seconds} s");
            std::process::abort();
        }
    });
    InTime { _done: done }
}

/// Runs a test with each number of threads.
pub fn with_each_count(test: impl Fn(usize)) {
    let _in_time = in_time();
    COUNTS.into_iter().for_each(test);
}

/// Between two looks. (Beside busy programs a thread that yields may wait for seconds.)
pub fn nap() {
    thread::sleep(Duration::from_micros(50));
}

/// What the threads of a test end by, also where the test panics.
#[derive(Default)]
pub struct Ends(AtomicBool);

impl Ends {
    pub fn has_come(&self) -> bool {
        self.0.load(Ordering::SeqCst)
    }

    pub fn come(&self) {
        self.0.store(true, Ordering::SeqCst);
    }

    pub fn wait(&self) {
        while !self.has_come() {
            nap();
        }
    }

    pub fn at_the_end(&self) -> EndsHere<'_> {
        EndsHere(self)
    }
}

pub struct EndsHere<'a>(&'a Ends);

impl Drop for EndsHere<'_> {
    fn drop(&mut self) {
        self.0.come();
    }
}

pub fn clients(system: &Safepoints, count: usize) -> Vec<Client> {
    (0..count).map(|_| system.client().unwrap()).collect()
}

pub fn threads(system: &Safepoints, count: usize) -> Vec<Thread<'static>> {
    let start = |client: Client| client.start(|_| {}).unwrap();
    clients(system, count).into_iter().map(start).collect()
}

/// Runs the body while all these threads are in native code.
pub fn in_native(threads: &mut [Thread], body: &mut dyn FnMut()) {
    match threads {
        [] => body(),
        [first, others @ ..] => first.in_native(|| in_native(others, body)).unwrap(),
    }
}

/// Works all that waits to its Close, while these threads are in native code.
pub fn drive_all(system: &mut Safepoints, threads: &mut [Thread]) {
    in_native(threads, &mut || while system.drive(|_| {}).is_ok() {});
    assert_eq!(system.advance(), Err(Refusal::QueueEmpty));
}

/// What a panic says that comes out of the body.
pub fn panic_of<T>(body: impl FnOnce() -> T) -> Option<&'static str> {
    let panic = catch_unwind(AssertUnwindSafe(body)).err()?;
    Some(
        *panic
            .downcast::<&str>()
            .unwrap_or_else(|other| resume_unwind(other)),
    )
}

/// A panic of which no hook tells.
pub fn panics_with(says: &'static str) -> ! {
    resume_unwind(Box::new(says))
}
