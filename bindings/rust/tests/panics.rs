//! Panics of bodies and of callbacks: each thread leaves what it was in and exits, and each request comes to its Close.
mod common;

use common::{clients, in_time, panic_of, panics_with, threads, with_each_count, Ends};
use safepoint::{Ask, Client, Next, Reclaimed, Refusal, Safepoints, Served, Thread};
use std::any::Any;
use std::cell::Cell;
use std::panic::{catch_unwind, AssertUnwindSafe};
use std::sync::atomic::{AtomicU64, AtomicUsize, Ordering};
use std::sync::mpsc;
use std::thread;
use std::time::Duration;

/// What a thread does.
type Act = fn(&mut Thread) -> Result<(), Refusal>;

fn says(panic: &(dyn Any + Send)) -> &'static str {
    panic.downcast_ref::<&str>().unwrap()
}

/// Submits a handshake with the threads, none of which has come when it is told.
fn told(system: &mut Safepoints, names: &[u64]) -> u64 {
    let operation = system.submit(names, Ask::Depth).unwrap();
    let awaited = Next::Awaits(names.len() as u64);
    assert_eq!(system.advance(), Ok(awaited));
    operation
}

#[test]
fn a_thread_whose_method_panics_exits() {
    with_each_count(|count| {
        let mut system = Safepoints::new(count, 4, 4).unwrap();
        let is_caught = |client: Client| {
            let mut thread = client.start(|_| {}).unwrap();
            let fails = |_: &mut Thread| -> Result<(), Refusal> { panic!("a bug in one task") };
            panic_of(|| thread.call(0, fails))
        };
        let running: Vec<_> = clients(&system, count)
            .into_iter()
            .map(|client| thread::spawn(move || is_caught(client)))
            .collect();
        for it in running {
            assert_eq!(it.join().unwrap(), Some("a bug in one task"));
        }
        assert_eq!(system.live(), Ok(vec![]));
        let census = system.census().unwrap();
        assert_eq!(system.drive(|_| {}), Ok(census));
    });
}

#[test]
fn a_panic_goes_on_to_whoever_joins() {
    with_each_count(|count| {
        let mut system = Safepoints::new(count, 1, 2).unwrap();
        let fails = |client: Client| -> Result<(), Refusal> {
            let mut thread = client.start(|_| {})?;
            thread.call(0, |thread| {
                thread.enter(1)?;
                thread.call(1, |_| panics_with("deep inside"))
            })
        };
        let running: Vec<_> = clients(&system, count)
            .into_iter()
            .map(|client| thread::spawn(move || fails(client)))
            .collect();
        for it in running {
            assert_eq!(says(&*it.join().unwrap_err()), "deep inside");
        }
        assert_eq!(system.live(), Ok(vec![]));
        system.census().unwrap();
        system.drive(|_| {}).unwrap();
    });
}

/// Each thread is told while it is in two methods, and panics there. So it stops as it leaves the upper one.
#[test]
fn a_stop_is_served_where_a_panic_leaves_a_method() {
    with_each_count(|count| {
        let mut system = Safepoints::new(count, 1, 2).unwrap();
        let (ends, own) = (Ends::default(), AtomicUsize::new(0));
        let (ready, are_ready) = mpsc::channel();
        let fails = |client: Client, ready: mpsc::Sender<u64>| -> Result<(), Refusal> {
            let mut thread = client.start(|served| {
                assert!(!served.is_held && thread::panicking());
                own.fetch_add(1, Ordering::SeqCst);
            })?;
            let name = thread.name();
            thread.call(0, |thread| {
                thread.call(1, |_| {
                    ready.send(name).unwrap();
                    ends.wait();
                    panics_with("inside two methods")
                })
            })
        };
        thread::scope(|scope| {
            let _ends_here = ends.at_the_end();
            let fails = &fails;
            let running: Vec<_> = clients(&system, count)
                .into_iter()
                .map(|client| (client, ready.clone()))
                .map(|(client, ready)| scope.spawn(move || fails(client, ready)))
                .collect();
            let names: Vec<u64> = are_ready.iter().take(count).collect();
            let operation = told(&mut system, &names);
            ends.come();
            assert_eq!(system.drive(|_| {}), Ok(operation));
            for name in names {
                assert_eq!(system.reply(operation, name), Ok(1));
            }
            for it in running {
                assert_eq!(says(&*it.join().unwrap_err()), "inside two methods");
            }
        });
        assert_eq!(own.load(Ordering::SeqCst), count);
        assert_eq!(system.live(), Ok(vec![]));
    });
}

/// The callback panics while another panic leaves a method.
#[test]
fn the_first_panic_goes_on_where_a_callback_panics_meanwhile() {
    let _in_time = in_time();
    let mut system = Safepoints::new(1, 1, 1).unwrap();
    let ran = Cell::new(0);
    let client = system.client().unwrap();
    let said = panic_of(|| {
        let mut thread = client.start(|_| {
            ran.set(ran.get() + 1);
            panic!("in a callback")
        })?;
        told(&mut system, &[thread.name()]);
        let fails = |_: &mut Thread| -> Result<(), Refusal> { panic!("in a method") };
        thread.call(0, fails)
    });
    assert_eq!((said, ran.get()), (Some("in a method"), 1));
    assert_eq!(system.advance(), Ok(Next::Closed(1)));
    assert_eq!(system.live(), Ok(vec![]));
}

#[test]
fn a_panic_of_a_callback_goes_on_out_of_each_call_that_polls() {
    // With the depth of the stack as the callback runs.
    let polling: [(Act, u64); 8] = [
        (|thread| thread.poll(), 0),
        (|thread| thread.call(0, |_| Ok(())), 0),
        (
            |thread| thread.call(0, |thread| thread.enter(0).map(drop)),
            1,
        ),
        (|thread| thread.enter(0).and_then(|_| thread.leave()), 0),
        (|thread| thread.in_vm(|| ()), 0),
        (|thread| thread.in_native(|| ()), 0),
        (|thread| thread.blocked(|| ()), 0),
        (|thread| thread.exit(), 0),
    ];
    with_each_count(|count| {
        for (polls, depth) in polling {
            let mut system = Safepoints::new(count, 1, 1).unwrap();
            let start = |client: Client| client.start(|_| panics_with("in a callback")).unwrap();
            let mut threads: Vec<_> = clients(&system, count).into_iter().map(start).collect();
            let names: Vec<u64> = threads.iter().map(|thread| thread.name()).collect();
            let operation = told(&mut system, &names);
            for thread in &mut threads {
                assert_eq!(panic_of(|| polls(thread)), Some("in a callback"));
            }
            assert_eq!(system.advance(), Ok(Next::Closed(operation)));
            for thread in &mut threads {
                assert_eq!(system.reply(operation, thread.name()), Ok(depth));
                let is_left = thread.exit();
                assert!(matches!(is_left, Ok(()) | Err(Refusal::NotThis)));
            }
            assert_eq!(system.live(), Ok(vec![]));
        }
    });
}

#[test]
fn a_drop_never_panics() {
    with_each_count(|count| {
        let mut system = Safepoints::new(count, 1, 1).unwrap();
        let ran = Cell::new(0);
        let start = |client: Client| {
            let callback = |_| {
                ran.set(ran.get() + 1);
                panics_with("in a callback")
            };
            client.start(callback).unwrap()
        };
        let threads: Vec<_> = clients(&system, count).into_iter().map(start).collect();
        let names: Vec<u64> = threads.iter().map(|thread| thread.name()).collect();
        let operation = told(&mut system, &names);
        drop(threads);
        assert_eq!(ran.get(), count);
        assert_eq!(system.advance(), Ok(Next::Closed(operation)));
        assert_eq!(system.live(), Ok(vec![]));
    });
}

#[test]
fn a_panic_of_a_body_leaves_all_that_it_ran_in() {
    with_each_count(|count| {
        let system = Safepoints::new(count, 1, 1).unwrap();
        for mut thread in threads(&system, count) {
            let bodies: [Act; 3] = [
                |thread| thread.in_native(|| panics_with("in a body")),
                |thread| thread.blocked(|| panics_with("in a body")),
                |thread| thread.in_vm(|| panics_with("in a body")),
            ];
            for body in bodies {
                assert_eq!(panic_of(|| thread.call(0, body)), Some("in a body"));
            }
            thread.exit().unwrap();
        }
        assert_eq!(system.live(), Ok(vec![]));
    });
}

/// A thread panics in native code or blocked while it is held, and comes back behind the callback alone.
#[test]
fn a_thread_that_panics_while_it_is_held_comes_back() {
    for is_blocked in [false, true] {
        with_each_count(|count| {
            let mut system = Safepoints::new(count, 1, 1).unwrap();
            let (inside, are_inside) = mpsc::channel();
            let (is_held, ran) = (Ends::default(), AtomicUsize::new(0));
            let fails = |client: Client, inside: mpsc::Sender<u64>| {
                let mut thread = client.start(|_| {}).unwrap();
                let name = thread.name();
                let waits = || {
                    inside.send(name).unwrap();
                    is_held.wait();
                    panics_with("while it is held")
                };
                let said = panic_of(|| match is_blocked {
                    false => thread.call(0, |thread| thread.in_native(waits)),
                    true => thread.call(0, |thread| thread.blocked(waits)),
                });
                (name, said, ran.load(Ordering::SeqCst) > 0)
            };
            thread::scope(|scope| {
                let _ends_here = is_held.at_the_end();
                let fails = &fails;
                let running: Vec<_> = clients(&system, count)
                    .into_iter()
                    .map(|client| (client, inside.clone()))
                    .map(|(client, inside)| scope.spawn(move || fails(client, inside)))
                    .collect();
                let names: Vec<u64> = are_inside.iter().take(count).collect();
                let operation = system.submit(&names[..1], Ask::Depth).unwrap();
                let closed = system.drive(|served| {
                    assert!(served.is_held);
                    is_held.come();
                    thread::sleep(Duration::from_millis(5));
                    ran.fetch_add(1, Ordering::SeqCst);
                });
                assert_eq!(
                    (closed, system.reply(operation, names[0])),
                    (Ok(operation), Ok(1))
                );
                for it in running {
                    let (name, said, has_run) = it.join().unwrap();
                    assert_eq!(said, Some("while it is held"));
                    assert!(has_run || name != names[0]);
                }
            });
            assert_eq!(system.live(), Ok(vec![]));
        });
    }
}

/// How the coordinator works on what waits.
type Works = fn(&mut Safepoints, u64, &mut dyn FnMut(Served)) -> Result<(), Refusal>;

#[test]
fn a_panic_for_a_held_thread_comes_after_the_close() {
    let works: [(bool, Works); 3] = [
        (true, |system, _, callback| system.drive(callback).map(drop)),
        (true, |system, _, callback| {
            system.drive_four(callback).map(drop)
        }),
        (false, |system, code, callback| {
            system.reclaim(code, callback).map(drop)
        }),
    ];
    with_each_count(|count| {
        for (submits, work) in works {
            let mut system = Safepoints::new(count, 1, 1).unwrap();
            let code = system.install(0).unwrap();
            system.invalidate(code).unwrap();
            let (ends, ran) = (Ends::default(), Cell::new(0));
            let (inside, are_inside) = mpsc::channel();
            thread::scope(|scope| {
                let _ends_here = ends.at_the_end();
                for client in clients(&system, count) {
                    let (inside, ends) = (inside.clone(), &ends);
                    scope.spawn(move || {
                        let mut thread = client.start(|_| {}).unwrap();
                        let name = thread.name();
                        let waits = || {
                            inside.send(name).unwrap();
                            ends.wait();
                        };
                        thread.call(0, |thread| thread.in_native(waits)).unwrap();
                    });
                }
                let names: Vec<u64> = are_inside.iter().take(count).collect();
                if submits {
                    system.submit(&names, Ask::Depth).unwrap();
                }
                let callback = &mut |served: Served| {
                    assert!(served.is_held);
                    ran.set(ran.get() + 1);
                    match ran.get() {
                        1 => panics_with("the first"),
                        2 => panics_with("the second"),
                        _ => {}
                    }
                };
                let said = panic_of(|| work(&mut system, code, callback));
                assert_eq!((said, ran.get()), (Some("the first"), count));
                for name in names {
                    let wanted = if submits { 1 } else { 0 };
                    assert_eq!(system.reply(1, name), Ok(wanted));
                }
                assert_eq!(system.open_kind(), Ok(None));
                assert_eq!(system.drive(|_| {}), Err(Refusal::QueueEmpty));
                let is_freed = match submits {
                    true => Ok(Reclaimed::Freed),
                    false => Err(Refusal::Unknown),
                };
                assert_eq!(system.reclaim(code, |_| {}), is_freed);
            });
            assert_eq!(system.live(), Ok(vec![]));
        }
    });
}

/// What a thread of the next test is in when it panics.
fn fails_inside(thread: &mut Thread, turn: u64) -> Result<(), Refusal> {
    thread.poll()?;
    match turn % 8 {
        0 => thread.in_native(|| panics_with("in native code")),
        1 => thread.blocked(|| panics_with("in a wait")),
        2 => thread.in_vm(|| panics_with("in the VM")),
        3 => thread.enter(1).and_then(|_| panics_with("in a method")),
        _ => thread.call(0, |thread| fails_inside(thread, turn / 2)),
    }
}

/// Lives of threads, one after the other, each of which ends by a panic. The callback panics too.
fn live_and_panic(clients: Vec<Client>, own: &AtomicU64) {
    for (client, turn) in clients.into_iter().zip(0..) {
        let has_run = Cell::new(false);
        let life = AssertUnwindSafe(|| {
            let callback = |_| {
                has_run.set(true);
                own.fetch_add(1, Ordering::SeqCst);
                panics_with("in a callback")
            };
            let mut thread = client.start(callback).unwrap();
            match has_run.get() {
                true => panics_with("a start whose callback panicked goes on"),
                false => fails_inside(&mut thread, turn),
            }
        });
        let said = says(&*catch_unwind(life).unwrap_err());
        assert!(said.starts_with("in "), "{said}");
    }
}

/// Works on a handshake with all live threads, where there is one, and on a census: how many answered.
fn asks_all(system: &mut Safepoints, held: &mut u64) -> u64 {
    let (names, mut answered) = (system.live().unwrap(), 0);
    if !names.is_empty() {
        let handshake = system.submit(&names, Ask::Depth).unwrap();
        assert_eq!(system.drive(|_| *held += 1), Ok(handshake));
        let answers = |name: &&u64| system.reply(handshake, **name).is_ok();
        answered = names.iter().filter(answers).count() as u64;
    }
    let census = system.census().unwrap();
    assert_eq!(system.drive(|_| {}), Ok(census));
    system.forget().unwrap();
    answered
}

/// Threads start, panic in all states and exit, while a coordinator works on handshakes and censuses of them.
#[test]
fn threads_that_panic_keep_nobody_waiting() {
    const LIVES: usize = 200;
    with_each_count(|count| {
        let mut system = Safepoints::new(count, 1, 2).unwrap();
        let (done, own) = (AtomicUsize::new(0), AtomicU64::new(0));
        let (mut held, mut answered) = (0, 0);
        thread::scope(|scope| {
            for _ in 0..count {
                let its = clients(&system, LIVES);
                scope.spawn(|| {
                    live_and_panic(its, &own);
                    done.fetch_add(1, Ordering::SeqCst);
                });
            }
            while done.load(Ordering::SeqCst) < count {
                answered += asks_all(&mut system, &mut held);
            }
        });
        assert_eq!(own.load(Ordering::SeqCst) + held, answered);
        assert_eq!(system.live(), Ok(vec![]));
        assert_eq!(system.drive(|_| {}), Err(Refusal::QueueEmpty));
    });
}
