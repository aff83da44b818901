//! Memory that C is refused: nothing of a call stays behind, and what was handed over comes back.
mod common;

use common::{drive_all, in_time, threads};
use safepoint::{Ask, Refusal, Safepoints};
use std::cell::Cell;
use std::os::raw::c_void;
use std::ptr;

thread_local! {
    /// Which of this thread's next growths of memory is refused, from 1 on; 0 for none.
    static REFUSED: Cell<u64> = const { Cell::new(0) };
}

extern "C" {
    fn __libc_malloc(size: usize) -> *mut c_void;
    fn __libc_realloc(block: *mut c_void, size: usize) -> *mut c_void;
}

fn is_refused() -> bool {
    let left = REFUSED.get();
    REFUSED.set(left.saturating_sub(1));
    left == 1
}

#[no_mangle]
extern "C" fn malloc(size: usize) -> *mut c_void {
    match is_refused() {
        true => ptr::null_mut(),
        // SAFETY: it is the function of this name of the C library.
        false => unsafe { __libc_malloc(size) },
    }
}

/// # Safety
/// As of the C library.
#[no_mangle]
unsafe extern "C" fn realloc(block: *mut c_void, size: usize) -> *mut c_void {
    match is_refused() {
        true => ptr::null_mut(),
        // SAFETY: the caller keeps what the C library asks.
        false => unsafe { __libc_realloc(block, size) },
    }
}

/// Makes a call that takes no memory in Rust, with one growth refused.
fn with_refused<T>(growth: u64, call: impl FnOnce() -> T) -> T {
    REFUSED.set(growth);
    let answer = call();
    REFUSED.set(0);
    answer
}

#[test]
fn targets_of_a_request_without_memory_are_not_those_of_the_next() {
    let _in_time = in_time();
    let mut system = Safepoints::new(3, 1, 1).unwrap();
    let mut all = threads(&system, 3);
    let names: Vec<u64> = all.iter().map(|thread| thread.name()).collect();
    for growth in 1.. {
        let refused = with_refused(growth, || system.submit(&names[..2], Ask::Depth));
        // The second may lack memory again, before it has its own targets or behind that.
        let second = with_refused(growth, || system.submit(&names[1..], Ask::Depth));
        let operation = system.submit(&names[2..], Ask::Depth).unwrap();
        drive_all(&mut system, &mut all);
        let replies = [0, 1, 2].map(|it| system.reply(operation, names[it]));
        let wanted = [Err(Refusal::NotAnswered), Err(Refusal::NotAnswered), Ok(0)];
        assert_eq!(replies, wanted);
        if let (Ok(first), Ok(second)) = (refused, second) {
            assert_eq!(second, first + 1);
            assert_eq!(system.reply(first, names[2]), Err(Refusal::NotAnswered));
            assert_eq!(system.reply(second, names[0]), Err(Refusal::NotAnswered));
            assert!(growth > 3, "no growth was refused");
            break;
        }
        assert!([refused, second].contains(&Err(Refusal::NoMemory)));
    }
}

#[test]
fn a_client_comes_back_where_there_is_no_memory() {
    let _in_time = in_time();
    for growth in 1.. {
        let system = Safepoints::new(1, 1, 1).unwrap();
        let client = system.client().unwrap();
        match with_refused(growth, || client.start(|_| {})) {
            Ok(thread) => {
                assert_eq!(system.live(), Ok(vec![thread.name()]));
                assert!(growth > 1, "no growth was refused");
                break;
            }
            Err(refused) => {
                assert_eq!(refused.refusal(), Refusal::NoMemory);
                let thread = refused.into_inner().start(|_| {}).unwrap();
                assert_eq!(system.live(), Ok(vec![thread.name()]));
            }
        }
    }
}

#[test]
fn a_party_that_finds_no_memory_is_none() {
    let _in_time = in_time();
    let made = |growth| with_refused(growth, || Safepoints::new(2, 2, 2));
    let refused = (1..).map_while(|growth| made(growth).err());
    let refused: Vec<_> = refused.collect();
    assert!(!refused.is_empty() && refused.iter().all(|it| *it == Refusal::NoMemory));
    let system = Safepoints::new(2, 2, 2).unwrap();
    let forked = with_refused(1, || system.client());
    assert_eq!(forked.unwrap_err(), Refusal::NoMemory);
    assert_eq!(system.client().unwrap().live(), Ok(vec![]));
}
