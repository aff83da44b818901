//! Starts that wait for a census, and starts that are refused: the client comes back, and starts later.
mod common;

use common::{clients, in_time, threads, with_each_count};
use safepoint::{Ask, Client, Next, Refusal, Safepoints, StartError};
use std::error::Error;
use std::sync::atomic::{AtomicUsize, Ordering};
use std::thread;
use std::time::Duration;

fn refused(client: Client) -> StartError {
    client.start(|_| {}).unwrap_err()
}

/// All start while one census is open, and go on once it is closed.
#[test]
fn starts_wait_while_a_census_is_open() {
    with_each_count(|count| {
        let mut system = Safepoints::new(count + 1, 1, 1).unwrap();
        let mut late = threads(&system, 1).remove(0);
        let census = system.census().unwrap();
        assert_eq!(system.advance(), Ok(Next::Awaits(1)));
        let started = AtomicUsize::new(0);
        thread::scope(|scope| {
            for client in clients(&system, count) {
                scope.spawn(|| {
                    let mut thread = client.start(|_| {}).unwrap();
                    started.fetch_add(1, Ordering::SeqCst);
                    thread.exit().unwrap();
                });
            }
            thread::sleep(Duration::from_millis(50));
            assert_eq!(started.load(Ordering::SeqCst), 0);
            assert_eq!(system.live(), Ok(vec![late.name()]));
            assert_eq!(late.in_native(|| system.drive(|_| {})), Ok(Ok(census)));
        });
        assert_eq!(started.load(Ordering::SeqCst), count);
        assert_eq!(system.live(), Ok(vec![late.name()]));
    });
}

#[test]
fn a_client_comes_back_where_each_place_has_a_thread() {
    with_each_count(|count| {
        let system = Safepoints::new(count, 1, 1).unwrap();
        let full = threads(&system, count);
        let mut kept = Vec::new();
        for it in clients(&system, count) {
            let refused = refused(it);
            assert_eq!(refused.refusal(), Refusal::PlacesFull);
            kept.push(refused.into_inner());
        }
        drop(full);
        let started: Vec<_> = kept
            .into_iter()
            .map(|it| it.start(|_| {}).unwrap())
            .collect();
        assert_eq!(system.live().unwrap().len(), started.len());
    });
}

/// Threads start all the time beside a coordinator that works on one census after the other.
#[test]
fn each_client_starts_beside_censuses() {
    const LIVES: usize = 200;
    with_each_count(|count| {
        let mut system = Safepoints::new(64, 4, 4).unwrap();
        let (started, done) = (AtomicUsize::new(0), AtomicUsize::new(0));
        thread::scope(|scope| {
            for _ in 0..count {
                let its = clients(&system, LIVES);
                scope.spawn(|| {
                    for client in its {
                        client.start(|_| {}).unwrap().poll().unwrap();
                        started.fetch_add(1, Ordering::SeqCst);
                    }
                    done.fetch_add(1, Ordering::SeqCst);
                });
            }
            while done.load(Ordering::SeqCst) < count {
                let census = system.census().unwrap();
                assert_eq!(system.drive(|_| {}), Ok(census));
                // (threads that get no processor start late, and a history of a million entries is full)
                system.forget().unwrap();
            }
        });
        assert_eq!(started.load(Ordering::SeqCst), count * LIVES);
        assert_eq!(system.live(), Ok(vec![]));
    });
}

fn asked(system: &Safepoints) -> Result<u64, Box<dyn Error + Send + Sync>> {
    let mut thread = system.client()?.start(|_| {})?;
    Ok(thread.call(0, |thread| thread.submit(&[thread.name()], Ask::Top))?)
}

#[test]
fn a_refused_start_is_an_error_like_others() {
    let _in_time = in_time();
    let system = Safepoints::new(1, 1, 1).unwrap();
    assert_eq!(asked(&system).unwrap(), 1);
    let _full = threads(&system, 1);
    let error = asked(&system).unwrap_err();
    let text = format!("the thread doesn't start: {}", Refusal::PlacesFull);
    assert_eq!(error.to_string(), text);
    assert_eq!(
        Refusal::from(refused(system.client().unwrap())),
        Refusal::PlacesFull
    );
    let refused = error.downcast::<StartError>().unwrap();
    assert_eq!(refused.into_inner().live(), Ok(vec![2]));
}
