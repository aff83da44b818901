//! What any party asks: the coordinator, a client and a running thread.
mod common;

use common::{clients, drive_all, in_time, nap, threads, with_each_count};
use safepoint::{Ask, Client, Kind, Next, Party, Reclaimed, Refusal, Safepoints, Thread};
use std::sync::atomic::{AtomicUsize, Ordering};
use std::sync::mpsc;
use std::thread;
use std::time::Duration;

/// Makes each call that any party may make, where a party has made them so often before.
fn asks_all_that_it_may(party: &Party, round: u64, names: &[u64]) {
    let codes = [party.install(0).unwrap(), party.install(1).unwrap()];
    assert_eq!(codes, [2 * round + 1, 2 * round + 2]);
    assert_eq!(party.invalidate(codes[1]), Ok(()));
    assert_eq!(party.invalidate(codes[1]), Err(Refusal::NotInUse));
    assert_eq!(party.install(9), Err(Refusal::NoSuchMethod));
    let asked = [
        party.submit(names, Ask::Depth),
        party.submit(&names[..1], Ask::CountOf(codes[0])),
        party.submit(names, Ask::Top),
        party.census(),
    ];
    assert_eq!(asked, [1, 2, 3, 4].map(|number| Ok(4 * round + number)));
    assert_eq!(party.submit(&[1, 1], Ask::Top), Err(Refusal::BadTargets));
    assert_eq!(party.submit(&[], Ask::Top), Err(Refusal::NoTargets));
    let begun = party.begin_reclaim(codes[0], names);
    assert_eq!(begun, Err(Refusal::StillInUse));
    let begun = party.begin_reclaim(codes[1], names);
    assert_eq!(begun, Err(Refusal::AlreadyOpen));
    assert_eq!(party.reply(4 * round + 1, names[0]), Err(Refusal::Pending));
    assert_eq!(party.open_kind(), Ok(None));
    assert_eq!(party.live().as_deref(), Ok(names));
}

fn reads_replies(party: &Party, round: u64, names: &[u64]) {
    for name in names {
        assert_eq!(party.reply(4 * round + 1, *name), Ok(0));
        assert_eq!(party.reply(4 * round + 3, *name), Ok(0));
    }
    assert_eq!(party.reply(4 * round + 2, names[0]), Ok(0));
    assert_eq!(party.forget(), Ok(()));
    assert_eq!(
        party.reply(4 * round + 1, names[0]),
        Err(Refusal::NotAnswered)
    );
}

#[test]
fn each_party_asks_all_that_any_may() {
    with_each_count(|count| {
        let mut system = Safepoints::new(count, 16, 2).unwrap();
        let client = system.client().unwrap().client().unwrap();
        let mut running = threads(&system, count);
        let names: Vec<u64> = running.iter().map(|thread| thread.name()).collect();
        for round in 0..3 {
            let party: &Party = match round {
                0 => &system,
                1 => &client,
                _ => &running[0],
            };
            asks_all_that_it_may(party, round, &names);
            drive_all(&mut system, &mut running);
            let party: &Party = match round {
                0 => &running[0],
                1 => &system,
                _ => &client,
            };
            reads_replies(party, round, &names);
        }
    });
}

/// A code is reclaimed in steps, which a client begins and the coordinator ends.
#[test]
fn any_party_begins_to_reclaim() {
    with_each_count(|count| {
        let mut system = Safepoints::new(count, 4, 1).unwrap();
        let client = system.client().unwrap();
        let mut running = threads(&system, count);
        let code = client.install(0).unwrap();
        running[0].enter(0).unwrap();
        client.invalidate(code).unwrap();
        let names = client.live().unwrap();
        let begun = client.begin_reclaim(code, &names).unwrap();
        assert_eq!(begun, Some(1));
        drive_all(&mut system, &mut running);
        assert_eq!(system.end_reclaim(code), Ok(Reclaimed::Used(1)));
        running[0].leave().unwrap();
        let begun = running[0].begin_reclaim(code, &names).unwrap();
        assert_eq!(begun, Some(2));
        drive_all(&mut system, &mut running);
        assert_eq!(system.end_reclaim(code), Ok(Reclaimed::Freed));
        drop(running);
        assert_eq!(client.begin_reclaim(code, &[]), Err(Refusal::Unknown));
        let code = client.install(0).unwrap();
        client.invalidate(code).unwrap();
        assert_eq!(client.begin_reclaim(code, &[]), Ok(None));
        assert_eq!(system.end_reclaim(code), Ok(Reclaimed::Freed));
    });
}

/// A thread asks about all that live, and polls until it has its own answer.
fn asks_in_a_method(thread: &mut Thread) -> Result<(), Refusal> {
    let code = loop {
        match thread.install(0) {
            Err(Refusal::TableFull) => thread.poll()?,
            installed => break installed?,
        }
    };
    let operation = loop {
        let names = thread.live()?;
        match thread.submit(&names, Ask::CountOf(code)) {
            Err(Refusal::QueueFull) => thread.poll()?,
            submitted => break submitted?,
        }
    };
    while thread.reply(operation, thread.name()) == Err(Refusal::Pending) {
        thread.poll()?;
        nap();
    }
    assert_eq!(thread.reply(operation, thread.name()), Ok(0));
    Ok(())
}

/// Running threads install codes and ask, while the coordinator does what they ask for and reclaims the codes.
#[test]
fn running_threads_ask() {
    const ROUNDS: usize = 10;
    with_each_count(|count| {
        let mut system = Safepoints::new(count, 1024, 1).unwrap();
        let done = AtomicUsize::new(0);
        thread::scope(|scope| {
            let done = &done;
            for client in clients(&system, count) {
                scope.spawn(move || {
                    let mut thread = client.start(|_| {}).unwrap();
                    for _ in 0..ROUNDS {
                        thread.call(0, asks_in_a_method).unwrap();
                    }
                    thread.exit().unwrap();
                    done.fetch_add(1, Ordering::SeqCst);
                });
            }
            while done.load(Ordering::SeqCst) < count {
                match system.drive_four(|_| {}).unwrap() {
                    0 => nap(),
                    closed => assert!(closed <= 4),
                }
            }
        });
        assert_eq!(system.live(), Ok(vec![]));
        let codes = 1..=(count * ROUNDS) as u64;
        for code in codes.clone() {
            let is_last = code == *codes.end();
            let wanted = if is_last {
                Err(Refusal::StillInUse)
            } else {
                Ok(Reclaimed::Freed)
            };
            assert_eq!(system.reclaim(code, |_| {}), wanted);
        }
    });
}

/// A thread that waits has a client of its own to ask with, also about itself.
#[test]
fn a_blocked_thread_asks_by_a_client() {
    with_each_count(|count| {
        let mut system = Safepoints::new(count, 1, 1).unwrap();
        let done = AtomicUsize::new(0);
        let asks = |client: Client| {
            let mut thread = client.start(|_| {}).unwrap();
            let (client, name) = (thread.client().unwrap(), thread.name());
            let waits = || {
                let operation = client.submit(&[name], Ask::Depth).unwrap();
                while client.reply(operation, name) == Err(Refusal::Pending) {
                    nap();
                }
                client.reply(operation, name)
            };
            assert_eq!(thread.call(0, |thread| thread.blocked(waits)), Ok(Ok(1)));
            done.fetch_add(1, Ordering::SeqCst);
        };
        thread::scope(|scope| {
            let asks = &asks;
            for client in clients(&system, count) {
                scope.spawn(move || asks(client));
            }
            while done.load(Ordering::SeqCst) < count {
                match system.advance() {
                    Ok(Next::Closed(number)) => assert!(number <= count as u64),
                    Ok(Next::Run(served)) => assert!(served.is_held),
                    Ok(Next::AtSafepoint(census)) => panic!("census {census}"),
                    Ok(Next::Awaits(late)) => assert!(late <= 1),
                    Err(refusal) => assert_eq!(refusal, Refusal::QueueEmpty),
                }
            }
        });
    });
}

#[test]
fn a_party_outlives_the_coordinator() {
    let _in_time = in_time();
    let system = Safepoints::new(1, 1, 1).unwrap();
    let client = system.client().unwrap();
    drop(system);
    assert_eq!(client.install(0), Ok(1));
    assert_eq!(client.open_kind(), Ok(None));
    let thread = client.start(|_| {}).unwrap();
    assert_eq!(thread.live(), Ok(vec![thread.name()]));
}

#[test]
fn a_vm_operation_runs_once_while_all_are_held() {
    let _in_time = in_time();
    let mut system = Safepoints::new(4, 4, 4).unwrap();
    let (ready, started) = mpsc::channel();
    let clients = [system.client().unwrap(), system.client().unwrap()];
    let threads = clients.map(|client| {
        let ready = ready.clone();
        thread::spawn(move || {
            let mut thread = client.start(|_| {}).unwrap();
            let name = thread.name();
            let wait = || {
                ready.send(name).unwrap();
                thread::sleep(Duration::from_millis(20));
            };
            thread.in_native(wait).unwrap();
        })
    });
    let names = [(); 2].map(|()| started.recv().unwrap());
    let handshake = system.submit_to_all(Ask::Depth).unwrap();
    assert_eq!(system.pending(), Ok(Some(handshake)));
    let mut operations = 0;
    let census = system
        .at_safepoint(|served| {
            if served.kind == Kind::Census {
                operations += 1;
                assert_eq!(
                    (served.operation, served.place, served.is_held),
                    (handshake + 1, 0, true)
                );
            }
        })
        .unwrap();
    assert_eq!((census, operations), (handshake + 1, 1));
    assert_eq!(system.wait_closed(census), Ok(()));
    assert_eq!(system.pending(), Ok(None));
    for name in names {
        assert!(matches!(
            system.reply(handshake, name),
            Ok(0) | Err(Refusal::NotAnswered)
        ));
    }
    for thread in threads {
        thread.join().unwrap();
    }
}
