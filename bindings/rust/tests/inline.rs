//! Polls in line, methods that are left several at once, and coroutines.
mod common;

use common::{clients, in_time, nap, panic_of, panics_with, with_each_count, Ends};
use safepoint::{Ask, Kind, Next, Reclaimed, Refusal, Safepoints, Served, Thread};
use std::cell::{Cell, RefCell};
use std::sync::atomic::{AtomicU32, AtomicU64, Ordering};
use std::sync::mpsc;
use std::thread;

/// What machine code of the thread reads.
fn word_of(thread: &Thread) -> u32 {
    // SAFETY: the thread lives, and others write the word by atomic steps alone.
    unsafe { AtomicU32::from_ptr(thread.poll_word().cast_mut()) }.load(Ordering::Relaxed)
}

/// A callback that counts in this word.
fn counting(ran: &AtomicU64) -> impl FnMut(Served) + '_ {
    |_| {
        ran.fetch_add(1, Ordering::SeqCst);
    }
}

fn enter_so_many(thread: &mut Thread, count: usize) {
    for _ in 0..count {
        thread.enter(0).unwrap();
    }
}

/// One way in which the coordinator stops all threads; how many callbacks that has for each.
fn stop_all(system: &mut Safepoints, way: u64, callback: &mut dyn FnMut(Served)) -> u64 {
    match way % 5 {
        0 => {
            let operation = system.submit_to_all(Ask::Depth).unwrap();
            assert_eq!(system.drive(callback), Ok(operation));
        }
        1 => {
            system.submit_to_all(Ask::Depth).unwrap();
            system.submit_to_all(Ask::Top).unwrap();
            assert_eq!(system.drive_four(callback), Ok(2));
            return 2;
        }
        2 => {
            system.at_safepoint(callback).unwrap();
            return 0;
        }
        3 => {
            let code = system.install(0).unwrap();
            system.invalidate(code).unwrap();
            assert_eq!(system.reclaim(code, callback), Ok(Reclaimed::Freed));
        }
        _ => {
            let operation = system.submit_to_all(Ask::Depth).unwrap();
            loop {
                match system.advance().unwrap() {
                    Next::Run(served) => callback(served),
                    Next::Awaits(_) => nap(),
                    Next::AtSafepoint(census) => panic!("census {census}"),
                    Next::Closed(number) => break assert_eq!(number, operation),
                }
            }
        }
    }
    1
}

#[test]
fn threads_that_make_no_other_call_are_stopped() {
    with_each_count(|count| {
        let mut system = Safepoints::new(count, 2, 1).unwrap();
        let (own, ends) = (AtomicU64::new(0), Ends::default());
        let (ready, are_ready) = mpsc::channel();
        thread::scope(|scope| {
            let _ends_here = ends.at_the_end();
            for client in clients(&system, count) {
                let (ready, own, ends) = (ready.clone(), &own, &ends);
                scope.spawn(move || {
                    let mut thread = client.start(counting(own)).unwrap();
                    ready.send(()).unwrap();
                    while !ends.has_come() {
                        thread.poll().unwrap();
                    }
                });
            }
            are_ready.iter().take(count).for_each(drop);
            let (mut held, mut wanted) = (0, 0);
            for way in 0..50 {
                let callback =
                    &mut |served: Served| held += u64::from(served.kind == Kind::Handshake);
                wanted += stop_all(&mut system, way, callback) * count as u64;
                assert_eq!(held + own.load(Ordering::SeqCst), wanted);
            }
        });
    });
}

/// The word isn't 0 from the first `advance` for a request to the last, nor in a callback. (Other tests of this program
/// drive too, so nothing is said about when it is 0.)
#[test]
fn the_word_says_that_a_coordinator_works() {
    let _in_time = in_time();
    let mut system = Safepoints::new(1, 1, 1).unwrap();
    let mut thread = system.client().unwrap().start(|_| {}).unwrap();
    system.submit_to_all(Ask::Depth).unwrap();
    assert_eq!(system.advance(), Ok(Next::Awaits(1)));
    assert!(word_of(&thread) > 0);
    let mut moved = system;
    assert!(word_of(&thread) > 0);
    thread.poll().unwrap();
    assert_eq!(moved.advance(), Ok(Next::Closed(1)));
    moved.submit_to_all(Ask::Depth).unwrap();
    let word = thread.poll_word() as usize;
    let seen = Cell::new(0);
    let look = |_| {
        // SAFETY: the thread lives, and others write the word by atomic steps alone.
        let word = unsafe { AtomicU32::from_ptr(word as *mut u32) };
        seen.set(word.load(Ordering::Relaxed));
    };
    assert_eq!(thread.in_native(|| moved.drive(look)), Ok(Ok(2)));
    assert!(seen.get() > 0);
    assert_eq!(moved.advance(), Err(Refusal::QueueEmpty));
    thread.back_edge().unwrap();
    thread.exit().unwrap();
    assert_eq!(thread.poll(), Err(Refusal::NotThis));
    assert_eq!(thread.back_edge(), Err(Refusal::NotThis));
    assert!(word_of(&thread) > 0);
}

#[test]
fn methods_are_left_down_to_a_depth() {
    let _in_time = in_time();
    let mut system = Safepoints::new(1, 1, 1).unwrap();
    let mut thread = system.client().unwrap().start(|_| {}).unwrap();
    assert_eq!((thread.unwind_to(0), thread.unwind_to(9)), (Ok(()), Ok(())));
    enter_so_many(&mut thread, 256);
    assert_eq!((thread.unwind_to(256), thread.depth()), (Ok(()), 256));
    assert_eq!((thread.unwind_to(5), thread.depth()), (Ok(()), 5));
    assert_eq!((thread.unwind_to(6), thread.depth()), (Ok(()), 5));
    system.submit_to_all(Ask::Depth).unwrap();
    assert_eq!(system.advance(), Ok(Next::Awaits(1)));
    assert_eq!((thread.unwind_to(1), thread.depth()), (Ok(()), 1));
    assert_eq!(system.advance(), Ok(Next::Closed(1)));
    // The first method had gone when the thread stopped.
    assert_eq!(system.reply(1, thread.name()), Ok(4));
    thread.suspend().unwrap();
    assert_eq!(thread.unwind_to(1), Ok(()));
    assert_eq!(thread.unwind_to(0), Err(Refusal::Illegal));
    thread.resume().unwrap();
    assert_eq!((thread.unwind_to(0), thread.exit()), (Ok(()), Ok(())));
}

#[test]
fn a_callback_that_panics_ends_no_unwinding() {
    let _in_time = in_time();
    let mut system = Safepoints::new(1, 1, 1).unwrap();
    let callback = |_| panics_with("in a callback");
    let mut thread = system.client().unwrap().start(callback).unwrap();
    enter_so_many(&mut thread, 9);
    system.submit_to_all(Ask::Depth).unwrap();
    assert_eq!(system.advance(), Ok(Next::Awaits(1)));
    assert_eq!(panic_of(|| thread.unwind_to(3)), Some("in a callback"));
    assert_eq!(thread.depth(), 3);
    assert_eq!(system.advance(), Ok(Next::Closed(1)));
}

/// An interpreter whose errors leave several methods, beside a coordinator.
#[test]
fn threads_unwind_beside_a_coordinator() {
    with_each_count(|count| {
        let mut system = Safepoints::new(count, 1, 2).unwrap();
        let (own, ends) = (AtomicU64::new(0), Ends::default());
        let (ready, are_ready) = mpsc::channel();
        thread::scope(|scope| {
            let _ends_here = ends.at_the_end();
            for client in clients(&system, count) {
                let (ready, own, ends) = (ready.clone(), &own, &ends);
                scope.spawn(move || {
                    let mut thread = client.start(counting(own)).unwrap();
                    ready.send(()).unwrap();
                    for turn in 0.. {
                        enter_so_many(&mut thread, turn % 30);
                        thread.unwind_to(turn % 5).unwrap();
                        assert!(thread.depth() < 5);
                        if ends.has_come() {
                            break;
                        }
                    }
                });
            }
            are_ready.iter().take(count).for_each(drop);
            let mut held = 0;
            for round in 1..=50 {
                system.submit_to_all(Ask::Depth).unwrap();
                system.drive(|_| held += 1).unwrap();
                assert_eq!(held + own.load(Ordering::SeqCst), round * count as u64);
            }
        });
        assert_eq!(system.live(), Ok(vec![]));
    });
}

#[test]
fn switches_are_refused_and_change_nothing() {
    let _in_time = in_time();
    let system = Safepoints::new(3, 1, 1).unwrap();
    let mut all = common::threads(&system, 3).into_iter();
    let mut next = || all.next().unwrap();
    let (mut first, mut second, mut gone) = (next(), next(), next());
    gone.exit().unwrap();
    assert_eq!(first.switch_to(&mut second), Err(Refusal::Illegal));
    assert_eq!(second.resume(), Err(Refusal::Illegal));
    second.suspend().unwrap();
    assert_eq!(second.suspend(), Err(Refusal::Illegal));
    assert_eq!(second.switch_to(&mut first), Err(Refusal::Illegal));
    assert_eq!(first.switch_to(&mut gone), Err(Refusal::NotThis));
    assert_eq!(gone.switch_to(&mut second), Err(Refusal::NotThis));
    assert_eq!(first.call(0, |_| Ok(())), Ok(()));
    assert_eq!(second.enter(0), Err(Refusal::Illegal));
    assert_eq!(first.switch_to(&mut second), Ok(()));
    assert_eq!(first.enter(0), Err(Refusal::Illegal));
    assert_eq!(second.call(0, |_| Ok(())), Ok(()));
    assert_eq!(
        (gone.suspend(), gone.resume()),
        (Err(Refusal::NotThis), Err(Refusal::NotThis))
    );
    drop((first, second));
    assert_eq!(system.live(), Ok(vec![]));
}

/// A method that is suspended in the middle is left by the drop.
#[test]
fn a_drop_brings_a_suspended_thread_back() {
    let _in_time = in_time();
    let system = Safepoints::new(1, 1, 1).unwrap();
    let mut thread = system.client().unwrap().start(|_| {}).unwrap();
    let suspended = thread.call(0, |thread| thread.enter(0).and_then(|_| thread.suspend()));
    assert_eq!((suspended, thread.depth()), (Err(Refusal::Illegal), 2));
    drop(thread);
    assert_eq!(system.live(), Ok(vec![]));
}

/// A switch serves what stops the thread that comes, with that one's callback.
#[test]
fn a_switch_runs_the_callback_of_the_one_that_comes() {
    let _in_time = in_time();
    let mut system = Safepoints::new(2, 1, 1).unwrap();
    let ran = &RefCell::new(Vec::new());
    let start = |name: &'static str| {
        let callback = move |_| ran.borrow_mut().push(name);
        system.client().unwrap().start(callback).unwrap()
    };
    let (mut first, mut second) = (start("first"), start("second"));
    system.submit(&[second.name()], Ask::Depth).unwrap();
    assert_eq!(system.advance(), Ok(Next::Awaits(1)));
    second.suspend().unwrap();
    first.switch_to(&mut second).unwrap();
    assert_eq!(*ran.borrow(), ["second"]);
    assert_eq!(system.advance(), Ok(Next::Closed(1)));
    system.submit_to_all(Ask::Depth).unwrap();
    let mut held = 0;
    second.switch_to(&mut first).unwrap();
    first
        .in_native(|| system.drive(|_| held += 1))
        .unwrap()
        .unwrap();
    assert_eq!((held, ran.borrow().len()), (2, 1));
}

#[test]
fn coroutines_take_turns_beside_a_coordinator() {
    with_each_count(|count| {
        let mut system = Safepoints::new(2 * count, 1, 1).unwrap();
        let (own, ends) = (AtomicU64::new(0), Ends::default());
        let (ready, are_ready) = mpsc::channel();
        thread::scope(|scope| {
            let _ends_here = ends.at_the_end();
            for _ in 0..count {
                let (ready, own, ends) = (ready.clone(), &own, &ends);
                let [one, two] = [(); 2].map(|()| system.client().unwrap());
                scope.spawn(move || {
                    let mut first = one.start(counting(own)).unwrap();
                    first.suspend().unwrap();
                    let mut second = two.start(counting(own)).unwrap();
                    ready.send(()).unwrap();
                    while !ends.has_come() {
                        second.call(0, |second| second.poll()).unwrap();
                        second.switch_to(&mut first).unwrap();
                        first.call(0, |first| first.poll()).unwrap();
                        first.switch_to(&mut second).unwrap();
                    }
                });
            }
            are_ready.iter().take(count).for_each(drop);
            let mut held = 0;
            for round in 1..=50 {
                system.submit_to_all(Ask::Depth).unwrap();
                system.drive(|_| held += 1).unwrap();
                assert_eq!(held + own.load(Ordering::SeqCst), 2 * round * count as u64);
                system
                    .at_safepoint(|served| assert_eq!(served.kind, Kind::Census))
                    .unwrap();
            }
        });
        assert_eq!(system.live(), Ok(vec![]));
    });
}
