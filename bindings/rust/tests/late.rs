//! Waits with an end, who is late, and what is counted.
mod common;
use common::{in_time, nap, Ends};
use safepoint::{Ask, Doing, Refusal, Safepoints, Stats};
use std::sync::mpsc;
use std::thread;
use std::time::{Duration, Instant};

const SHORT: Duration = Duration::from_millis(5);
const LONG: Duration = Duration::from_secs(60);

/// A thread that doesn't poll is late; then it polls, and runs its callback for long.
#[test]
fn a_late_thread_is_named() {
    let _in_time = in_time();
    let mut system = Safepoints::new(2, 1, 1).unwrap();
    let client = system.client().unwrap();
    let (polls, returns) = (Ends::default(), Ends::default());
    let (ready, started) = mpsc::channel();
    thread::scope(|scope| {
        let _ends_here = (polls.at_the_end(), returns.at_the_end());
        let (starts, polls, returns) = (system.client().unwrap(), &polls, &returns);
        let running = scope.spawn(move || {
            let mut thread = starts.start(|_| returns.wait()).unwrap();
            ready.send((thread.name(), thread.place())).unwrap();
            polls.wait();
            thread.poll().unwrap();
        });
        let (name, place) = started.recv().unwrap();
        let operation = client.submit_to_all(Ask::Depth).unwrap();
        let begun = Instant::now();
        assert_eq!(system.drive_for(SHORT, |_| {}), Err(Refusal::Timeout));
        assert!(begun.elapsed() >= SHORT);
        assert_eq!(
            client.wait_closed_for(operation, SHORT),
            Err(Refusal::Timeout)
        );
        let late = |system: &Safepoints| {
            let late = system.late().unwrap();
            assert_eq!(late.len(), 1);
            assert_eq!((late[0].name, late[0].place), (name, place));
            late[0].doing
        };
        assert_ne!(late(&system), Doing::Serves(operation));
        polls.come();
        while late(&system) != Doing::Serves(operation) {
            assert_eq!(
                system.drive_for(Duration::ZERO, |_| {}),
                Err(Refusal::Timeout)
            );
            nap();
        }
        returns.come();
        assert_eq!(system.drive_for(LONG, |_| {}), Ok(operation));
        assert_eq!(client.wait_closed_for(operation, Duration::ZERO), Ok(()));
        running.join().unwrap();
    });
    assert_eq!(
        system.drive_for(Duration::MAX, |_| {}),
        Err(Refusal::QueueEmpty)
    );
}

#[test]
fn a_request_is_waited_for() {
    let _in_time = in_time();
    let mut system = Safepoints::new(1, 1, 1).unwrap();
    let client = system.client().unwrap();
    assert_eq!(system.wait_request(Duration::ZERO), Err(Refusal::Timeout));
    assert_eq!(system.wait_request(SHORT), Err(Refusal::Timeout));
    let asking = thread::spawn(move || {
        thread::sleep(SHORT);
        client.census().unwrap()
    });
    let number = system.wait_request(LONG).unwrap();
    assert_eq!(asking.join().unwrap(), number);
    assert_eq!(system.drive(|_| {}), Ok(number));
}

/// Other tests of this program may count too.
#[test]
fn what_stops_take_is_counted() {
    let _in_time = in_time();
    let mut system = Safepoints::new(1, 1, 1).unwrap();
    Stats::on(true);
    system.at_safepoint(|_| thread::sleep(SHORT)).unwrap();
    let stats = Stats::read();
    assert!(stats.censuses >= 1 && stats.to_safepoint.count() >= 1);
    assert!(stats.callbacks.greatest >= SHORT && stats.callbacks.sum >= stats.callbacks.greatest);
}
