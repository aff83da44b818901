//! Threads with callbacks, beside a coordinator.
mod common;

use common::{clients, in_native, in_time, nap, threads, with_each_count, Ends};
use safepoint::{Ask, Client, Kind, Next, Reclaimed, Refusal, Safepoints, Thread};
use std::sync::atomic::{AtomicU64, Ordering};
use std::sync::mpsc;
use std::thread;

#[test]
fn refusals_have_texts() {
    let _in_time = in_time();
    assert_eq!(Safepoints::new(0, 1, 1).unwrap_err(), Refusal::BadSize);
    assert_eq!(
        Refusal::BadSize.to_string(),
        "a size is 0, or above its limit"
    );
    let mut system = Safepoints::new(1, 1, 1).unwrap();
    assert_eq!(
        system.submit(&[], Ask::Depth).unwrap_err(),
        Refusal::NoTargets
    );
    assert_eq!(system.drive(|_| {}).unwrap_err(), Refusal::QueueEmpty);
    assert_eq!(system.drive_four(|_| {}).unwrap(), 0);
    assert_eq!(system.reclaim(1, |_| {}).unwrap_err(), Refusal::Unknown);
}

/// The only thread doesn't poll until another party has seen what is open, so the drive can't end before.
fn assert_is_seen_open(
    system: &mut Safepoints,
    kind: Kind,
    submit: impl FnOnce(&mut Safepoints, u64),
) {
    let (looking, client) = (system.client().unwrap(), system.client().unwrap());
    let (ready, started) = mpsc::channel();
    let ends = Ends::default();
    thread::scope(|scope| {
        let _ends_here = ends.at_the_end();
        let ends = &ends;
        scope.spawn(move || {
            let mut thread = client.start(|_| {}).unwrap();
            ready.send(thread.name()).unwrap();
            ends.wait();
            thread.poll().unwrap();
        });
        submit(system, started.recv().unwrap());
        assert_eq!(looking.open_kind(), Ok(None));
        scope.spawn(move || {
            let _ends_here = ends.at_the_end();
            while looking.open_kind() != Ok(Some(kind)) {
                nap();
            }
        });
        system.drive(|_| {}).unwrap();
        assert_eq!(system.open_kind(), Ok(None));
    });
}

#[test]
fn the_kind_of_what_is_open_is_told() {
    let _in_time = in_time();
    let mut system = Safepoints::new(1, 1, 1).unwrap();
    assert_is_seen_open(&mut system, Kind::Handshake, |system, name| {
        system.submit(&[name], Ask::Depth).unwrap();
    });
    assert_is_seen_open(&mut system, Kind::Census, |system, _name| {
        system.census().unwrap();
    });
}

/// A host with its own waits: one thread is held in native code, the other serves itself.
#[test]
fn the_work_is_advanced_step_by_step() {
    let _in_time = in_time();
    const ROUNDS: u64 = 100;
    let mut system = Safepoints::new(2, 1, 1).unwrap();
    assert_eq!(system.advance(), Err(Refusal::QueueEmpty));
    let clients = clients(&system, 2);
    let (own, ends) = (AtomicU64::new(0), Ends::default());
    thread::scope(|scope| {
        let _ends_here = ends.at_the_end();
        let (ready, started) = mpsc::channel();
        let (own, ends) = (&own, &ends);
        for (index, client) in clients.into_iter().enumerate() {
            let ready = ready.clone();
            scope.spawn(move || {
                let mut thread = client
                    .start(|_| {
                        own.fetch_add(1, Ordering::SeqCst);
                    })
                    .unwrap();
                let tell = |name| ready.send(name).unwrap();
                let name = thread.name();
                match index {
                    0 => tell(name),
                    _ => thread
                        .in_native(|| {
                            tell(name);
                            ends.wait()
                        })
                        .unwrap(),
                }
                while !ends.has_come() {
                    thread.poll().unwrap();
                }
            });
        }
        let names = [(); 2].map(|()| started.recv().unwrap());
        let mut ran = 0;
        for _ in 0..ROUNDS {
            let operation = system.submit(&names, Ask::Depth).unwrap();
            loop {
                match system.advance().unwrap() {
                    Next::Closed(number) => break assert_eq!(number, operation),
                    Next::AtSafepoint(census) => panic!("census {census}"),
                    Next::Run(served) => {
                        assert!(served.operation == operation && served.place < 2);
                        assert!(served.is_held);
                        ran += 1;
                    }
                    Next::Awaits(count) => {
                        assert!(count <= 2);
                        nap();
                    }
                }
            }
            assert_eq!(system.reply(operation, names[0]).unwrap(), 0);
        }
        assert_eq!(ran + own.load(Ordering::SeqCst), 2 * ROUNDS);
        assert!(ran >= ROUNDS);
    });
}

#[test]
fn each_callback_runs_once() {
    let _in_time = in_time();
    const THREADS: usize = 4;
    const ROUNDS: u64 = 200;
    let (own, ends) = (AtomicU64::new(0), Ends::default());
    let mut held = 0;
    let mut system = Safepoints::new(8, 8, 2).unwrap();
    let code = system.install(0).unwrap();
    let clients: Vec<_> = (0..THREADS).map(|_| system.client().unwrap()).collect();
    thread::scope(|scope| {
        let _ends_here = ends.at_the_end();
        let (ready, started) = mpsc::channel();
        for (index, client) in clients.into_iter().enumerate() {
            let (ready, own, ends) = (ready.clone(), &own, &ends);
            scope.spawn(move || {
                let mut thread = client
                    .start(|served| {
                        assert!(!served.is_held);
                        own.fetch_add(1, Ordering::SeqCst);
                    })
                    .unwrap();
                ready.send(thread.name()).unwrap();
                while !ends.has_come() {
                    thread.call(0, |thread| thread.poll()).unwrap();
                    match index {
                        0 => thread.in_native(thread::yield_now).unwrap(),
                        1 => thread.blocked(thread::yield_now).unwrap(),
                        _ => {}
                    }
                }
            });
        }
        let names: Vec<u64> = (0..THREADS).map(|_| started.recv().unwrap()).collect();
        for _ in 0..ROUNDS {
            let operation = system.submit(&names, Ask::CountOf(code)).unwrap();
            assert_eq!(system.drive(|_| held += 1).unwrap(), operation);
            assert_replies(&mut system, operation, &names);
        }
        for _ in 0..ROUNDS {
            let operations = [(); 4].map(|()| system.submit(&names, Ask::CountOf(code)).unwrap());
            assert_eq!(system.drive_four(|_| held += 1).unwrap(), 4);
            for operation in operations {
                assert_replies(&mut system, operation, &names);
            }
        }
        assert_eq!(
            own.load(Ordering::SeqCst) + held,
            5 * ROUNDS * THREADS as u64
        );
        let counted = system.census().unwrap();
        assert_eq!(system.drive(|_| {}).unwrap(), counted);
        assert!(system.counted(code).unwrap() <= THREADS as u64);
        system.invalidate(code).unwrap();
        while system.reclaim(code, |_| held += 1).unwrap() != Reclaimed::Freed {}
    });
    assert_eq!(system.live().unwrap(), []);
}

fn assert_replies(system: &mut Safepoints, operation: u64, names: &[u64]) {
    for name in names {
        assert!(system.reply(operation, *name).unwrap() <= 1);
    }
}

#[test]
fn refusals_of_a_thread_are_answered() {
    let _in_time = in_time();
    let system = Safepoints::new(2, 1, 1).unwrap();
    let mut thread = system.client().unwrap().start(|_| {}).unwrap();
    assert_eq!(thread.call(1, |_| Ok(())), Err(Refusal::NoSuchMethod));
    let both = thread.call(0, |thread| thread.call(1, |_| Ok(())));
    assert_eq!(both, Err(Refusal::NoSuchMethod));
    let exited = thread.call(0, |thread| thread.exit());
    assert_eq!(exited, Err(Refusal::StackNotEmpty));
    assert_eq!(thread.leave(), Err(Refusal::EmptyStack));
    thread.exit().unwrap();
    assert_eq!(thread.poll(), Err(Refusal::NotThis));
    assert_eq!(thread.publish(), Err(Refusal::NotThis));
    assert_eq!(thread.in_native(|| ()), Err(Refusal::NotThis));
    assert_eq!(thread.exit(), Err(Refusal::NotThis));
    assert_eq!(thread.live(), Ok(vec![]));
}

#[test]
fn a_call_leaves_what_was_entered_in_it() {
    let _in_time = in_time();
    let mut system = Safepoints::new(1, 1, 2).unwrap();
    let code = system.install(1).unwrap();
    let mut thread = system.client().unwrap().start(|_| {}).unwrap();
    let depth_of = |system: &mut Safepoints, thread: &mut Thread| {
        let operation = system.submit(&[thread.name()], Ask::Depth).unwrap();
        let driven = thread.in_native(|| system.drive(|_| {}));
        assert_eq!(driven, Ok(Ok(operation)));
        system.reply(operation, thread.name()).unwrap()
    };
    assert_eq!(thread.enter(0), Ok(0));
    let inside = thread.call_with(1, |thread, serial| {
        assert_eq!((serial, thread.enter(1)), (code, Ok(code)));
        thread.enter(0)?;
        thread.leave()?;
        Ok(depth_of(&mut system, thread))
    });
    assert_eq!(inside, Ok(3));
    assert_eq!(depth_of(&mut system, &mut thread), 1);
    assert_eq!(thread.exit(), Err(Refusal::StackNotEmpty));
    drop(thread);
    assert_eq!(system.live(), Ok(vec![]));
}

#[test]
fn no_more_than_256_frames_are_entered_and_a_drop_leaves_all() {
    let _in_time = in_time();
    let system = Safepoints::new(1, 1, 1).unwrap();
    let mut thread = system.client().unwrap().start(|_| {}).unwrap();
    for _ in 0..256 {
        assert_eq!(thread.enter(0), Ok(0));
    }
    assert_eq!(thread.enter(0), Err(Refusal::DepthFull));
    assert_eq!(thread.call(0, |_| Ok(())), Err(Refusal::DepthFull));
    drop(thread);
    assert_eq!(system.live(), Ok(vec![]));
}

#[test]
fn threads_that_are_swapped_in_a_method_exit() {
    let _in_time = in_time();
    let mut system = Safepoints::new(2, 1, 1).unwrap();
    let mut both = threads(&system, 2);
    let (mut other, mut thread) = (both.pop().unwrap(), both.pop().unwrap());
    let swapped = thread.call(0, |thread| {
        std::mem::swap(thread, &mut other);
        Ok(())
    });
    assert_eq!(swapped, Ok(()));
    drop((thread, other));
    assert_eq!(system.live(), Ok(vec![]));
    let census = system.census().unwrap();
    assert_eq!(system.drive(|_| {}), Ok(census));
}

#[test]
fn a_place_names_a_held_thread() {
    with_each_count(|count| {
        let mut system = Safepoints::new(count, 1, 1).unwrap();
        let mut all = threads(&system, count);
        let names: Vec<u64> = all.iter().map(|thread| thread.name()).collect();
        let mut places: Vec<usize> = all.iter().map(|thread| thread.place()).collect();
        let mut found = Vec::new();
        system.submit(&names, Ask::Depth).unwrap();
        in_native(&mut all, &mut || {
            system.drive(|served| found.push(served.place)).unwrap();
        });
        places.sort_unstable();
        found.sort_unstable();
        assert_eq!(found, places);
        assert_eq!(places, Vec::from_iter(0..count));
    });
}

#[test]
fn threads_start_and_exit_beside_a_coordinator() {
    const LIVES: usize = 500;
    with_each_count(|count| {
        let system = Safepoints::new(count, 1, 1).unwrap();
        let done = AtomicU64::new(0);
        thread::scope(|scope| {
            for _ in 0..count {
                let (its, done) = (clients(&system, LIVES), &done);
                scope.spawn(move || {
                    its.into_iter().for_each(live);
                    done.fetch_add(1, Ordering::SeqCst);
                });
            }
            while done.load(Ordering::SeqCst) < count as u64 {
                let names = system.live().unwrap();
                assert!(names.windows(2).all(|two| two[0] < two[1]));
                system.forget().unwrap();
            }
        });
        assert_eq!(system.live(), Ok(vec![]));
    });
}

fn live(client: Client) {
    drop(client.start(|_| {}).unwrap());
}
