//! A system that threads share.
mod common;

use common::{in_time, nap, with_each_count};
use safepoint::{Ask, Refusal, Safepoints, System};
use std::sync::atomic::{AtomicUsize, Ordering};
use std::sync::Barrier;
use std::thread;

fn asks_itself(system: &System) -> Result<u64, Refusal> {
    let mut thread = system.join()?.start(|_| {})?;
    thread.call(0, |thread| {
        let operation = loop {
            match thread.submit(&[thread.name()], Ask::Depth) {
                Err(Refusal::QueueFull) => thread.poll().map(|()| nap())?,
                submitted => break submitted?,
            }
        };
        loop {
            match thread.reply(operation, thread.name()) {
                Err(Refusal::Pending) => thread.poll().map(|()| nap())?,
                replied => break replied,
            }
        }
    })
}

/// So many threads join at once, again and again, while the coordinator works on what they ask, and on censuses.
fn threads_join(count: usize, lives: usize) {
    let mut safepoints = Safepoints::new(count, 1, 1).unwrap();
    let (system, together) = (safepoints.system(), Barrier::new(count));
    let done = AtomicUsize::new(0);
    thread::scope(|scope| {
        for _ in 0..count {
            scope.spawn(|| {
                for _ in 0..lives {
                    together.wait();
                    assert_eq!(asks_itself(&system), Ok(1));
                }
                done.fetch_add(1, Ordering::SeqCst);
            });
        }
        while done.load(Ordering::SeqCst) < count {
            for _ in 0..8 {
                match safepoints.drive(|_| {}) {
                    Err(Refusal::QueueEmpty) => nap(),
                    driven => drop(driven.unwrap()),
                }
            }
            match safepoints.at_safepoint(|_| {}) {
                Err(Refusal::QueueFull) => {}
                operated => drop(operated.unwrap()),
            }
        }
    });
    assert_eq!(safepoints.live(), Ok(vec![]));
    let last = system.join().unwrap().start(|_| {}).unwrap();
    assert_eq!(last.name(), (count * lives) as u64 + 1);
}

#[test]
fn threads_join_at_once() {
    with_each_count(|count| threads_join(count, 20));
}

#[test]
fn all_64_threads_join_at_once() {
    let _in_time = in_time();
    threads_join(64, 10);
}

/// Each thread has a clone, and the last of them keeps the system after its coordinator is gone.
#[test]
fn a_system_outlives_its_coordinator() {
    with_each_count(|count| {
        let safepoints = Safepoints::new(count, 1, 1).unwrap();
        let client = safepoints.client().unwrap();
        let running: Vec<_> = (0..count)
            .map(|_| safepoints.system().clone())
            .map(|system| thread::spawn(move || system.join().unwrap()))
            .collect();
        drop(safepoints);
        let joined: Vec<_> = running.into_iter().map(|it| it.join().unwrap()).collect();
        let started: Vec<_> = joined
            .into_iter()
            .map(|it| it.start(|_| {}).unwrap())
            .collect();
        assert_eq!(client.live().unwrap().len(), started.len());
        drop(started);
        assert_eq!(client.live(), Ok(vec![]));
    });
}

/// So many parties are threads again and again, beside requests of all.
#[test]
fn a_client_starts_again() {
    const LIVES: usize = 50;
    with_each_count(|count| {
        let mut safepoints = Safepoints::new(count, 1, 1).unwrap();
        let (system, done) = (safepoints.system(), AtomicUsize::new(0));
        thread::scope(|scope| {
            for _ in 0..count {
                scope.spawn(|| {
                    let (mut client, mut last) = (system.join().unwrap(), 0);
                    for life in 0..LIVES {
                        let mut thread = client.start(|_| {}).unwrap();
                        assert!(thread.name() > last);
                        last = thread.name();
                        thread.enter(0).unwrap();
                        thread.poll().unwrap();
                        if life % 2 == 0 {
                            thread.leave().unwrap();
                            thread.exit().unwrap();
                        }
                        client = thread.into_client().unwrap();
                    }
                    done.fetch_add(1, Ordering::SeqCst);
                });
            }
            while done.load(Ordering::SeqCst) < count {
                match safepoints.submit_to_all(Ask::Depth) {
                    Err(Refusal::NoTargets) => {}
                    asked => assert_eq!(safepoints.drive(|_| {}), asked),
                }
                safepoints.at_safepoint(|_| {}).unwrap();
                safepoints.forget().unwrap();
            }
        });
        assert_eq!(safepoints.live(), Ok(vec![]));
    });
}

#[test]
fn a_system_of_no_size_is_refused() {
    let _in_time = in_time();
    assert_eq!(Safepoints::new(65, 1, 1).unwrap_err(), Refusal::BadSize);
    let system = Safepoints::new(1, 1, 1).unwrap().system();
    assert_eq!(format!("{system:?}"), "System { .. }");
}
