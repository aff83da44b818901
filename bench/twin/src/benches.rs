//! One function for every kind of measurement.
use crate::callback::{Ask, Boxed, Callback, Query};
use crate::image::*;
use crate::proto::*;
use std::sync::Barrier;
use std::sync::atomic::{AtomicBool, Ordering::*};
use std::time::Instant;

pub const POLL: u32 = 1;
pub const CALLRET: u32 = 2;
pub const CALLRET_DEEP: u32 = 3;
pub const PUBLISH: u32 = 4;
pub const NATIVE: u32 = 5;
pub const HANDSHAKE: u32 = 6;
pub const CENSUS: u32 = 7;
pub const RECLAIM: u32 = 8;
pub const SCALE: u32 = 9;
pub const BOXED_HANDSHAKE: u32 = 10;
pub const CALLRET_NOHINT: u32 = 12;
pub const CALLRET_LENT: u32 = 13;

fn ns(t: Instant) -> u64 {
    t.elapsed().as_nanos() as u64
}

/// A thread, and something wrong that it was answered, or 0.
type Called<'a, S, I> = (Mutator<'a, S, I, Query>, u64);

/// The loops of one thread. Each is a function of its own, which has the thread by value, as in the product's program.
#[inline(never)]
fn back_edges<S: Layout, I: Image>(mut m: Mutator<'_, S, I, Query>, iters: u64) -> Called<'_, S, I> {
    let mut bad = 0;
    for _ in 0..iters {
        bad |= m.back_edge().unwrap_or(1);
    }
    (m, bad)
}

#[inline(always)]
fn make_pairs<S: Layout, I: Image>(sh: &Shared<S, I, Query>, m: &mut Mutator<'_, S, I, Query>, iters: u64) -> u64 {
    let mut bad = 0;
    for _ in 0..iters {
        let h = sh.hint(3);
        bad |= m.call(3, h).is_none() as u64;
        bad |= m.ret().unwrap_or(1);
    }
    bad
}

#[inline(never)]
fn hinted_pairs<'a, S: Layout, I: Image>(sh: &'a Shared<S, I, Query>, mut m: Mutator<'a, S, I, Query>, iters: u64) -> Called<'a, S, I> {
    let bad = make_pairs(sh, &mut m, iters);
    (m, bad)
}

/// Over a thread that is lent, by reference.
#[inline(never)]
fn lent_pairs<S: Layout, I: Image>(sh: &Shared<S, I, Query>, m: &mut Mutator<'_, S, I, Query>, iters: u64) -> u64 {
    make_pairs(sh, m, iters)
}

#[inline(never)]
fn interpreted_pairs<S: Layout, I: Image>(mut m: Mutator<'_, S, I, Query>, iters: u64) -> Called<'_, S, I> {
    let mut bad = 0;
    for _ in 0..iters {
        bad |= m.call(3, None).is_none() as u64;
        bad |= m.ret().unwrap_or(1);
    }
    (m, bad)
}

/// So many stacks of calls of methods in turn, never published.
#[inline(never)]
fn stacks<'a, S: Layout, I: Image>(sh: &'a Shared<S, I, Query>, mut m: Mutator<'a, S, I, Query>, count: u64, deep: usize, methods: usize) -> Called<'a, S, I> {
    let mut bad = 0;
    for _ in 0..count {
        for i in 0..deep {
            let x = i * 7 % methods;
            let h = sh.hint(x);
            bad |= m.call(x, h).is_none() as u64;
        }
        for _ in 0..deep {
            bad |= m.ret().unwrap_or(1);
        }
    }
    (m, bad)
}

#[inline(never)]
fn publications<'a, S: Layout, I: Image>(sh: &'a Shared<S, I, Query>, mut m: Mutator<'a, S, I, Query>, iters: u64, codes: usize, publishes: bool) -> Called<'a, S, I> {
    let mut bad = 0;
    for _ in 0..iters {
        for i in 0..codes {
            let h = sh.hint(i);
            bad |= m.call(i, h).is_none() as u64;
        }
        if publishes {
            m.publish();
        }
        for _ in 0..codes {
            bad |= m.ret().unwrap_or(1);
        }
        if publishes {
            m.publish();
        }
    }
    if !publishes {
        m.publish();
    }
    (m, bad)
}

#[inline(never)]
fn crossings<S: Layout, I: Image>(mut m: Mutator<'_, S, I, Query>, iters: u64) -> Called<'_, S, I> {
    let mut bad = 0;
    for _ in 0..iters {
        m.to_native();
        bad |= m.from_native();
    }
    (m, bad)
}

/// Rows of `out`: of one thread's calls one total in ns, of stops one sample in ns each, of many threads one total each. Returns the rows written.
pub fn bench<S: Layout, I: Image>(kind: u32, threads: u32, iters: u64, arg: u64, pol: Policy, out: &mut [u64]) -> usize {
    match kind {
        POLL | CALLRET | CALLRET_DEEP | PUBLISH | NATIVE | CALLRET_NOHINT | CALLRET_LENT => {
            let methods = 256;
            let slots = 1024;
            let sh = Shared::<S, I, Query>::new(4, slots, methods, pol);
            for m in 0..methods {
                sh.install(m);
            }
            let mut m = sh.start();
            let t = Instant::now();
            let (mut m, bad) = match kind {
                POLL => back_edges(m, iters),
                CALLRET => hinted_pairs(&sh, m, iters),
                CALLRET_LENT => {
                    let bad = lent_pairs(&sh, &mut m, iters);
                    (m, bad)
                }
                CALLRET_NOHINT => interpreted_pairs(m, iters),
                CALLRET_DEEP => stacks(&sh, m, iters / arg, arg as usize, methods),
                // low 32 bits: changed codes; bit 32: leave the publications out
                PUBLISH => publications(&sh, m, iters, (arg & 0xffff_ffff) as usize, arg >> 32 == 0),
                NATIVE => crossings(m, iters),
                _ => unreachable!(),
            };
            out[0] = ns(t);
            assert!(bad == 0);
            m.publish();
            m.exit();
            1
        }
        HANDSHAKE | CENSUS | RECLAIM => latency::<S, I, Query>(kind, threads as usize, iters as usize, arg, pol, out),
        BOXED_HANDSHAKE => latency::<S, I, Boxed<I>>(kind, threads as usize, iters as usize, arg, pol, out),
        SCALE => scale::<S, I>(threads as usize, iters, arg, pol, out),
        _ => 0,
    }
}

/// arg 0: threads make back edges (in batches of calls and returns); 1: threads are in native.
fn latency<S: Layout, I: Image, C: Callback<I>>(kind: u32, n: usize, iters: usize, arg: u64, pol: Policy, out: &mut [u64]) -> usize {
    let sh = Shared::<S, I, C>::new(64, 1024, 256, pol);
    let base = sh.install(0);
    let _ = base;
    let quit = AtomicBool::new(false);
    let ready = Barrier::new(n + 1);
    let mut w = 0;
    std::thread::scope(|sc| {
        for _ in 0..n {
            let (sh, quit, ready) = (&sh, &quit, &ready);
            sc.spawn(move || {
                let mut m = sh.start();
                let h = sh.hint(0);
                m.call(0, h);
                m.publish();
                if arg == 1 {
                    m.to_native();
                    ready.wait();
                    while !quit.load(Relaxed) {
                        std::thread::park_timeout(std::time::Duration::from_millis(200));
                    }
                    if m.from_native() != 0 {
                        m.stop();
                    }
                } else {
                    ready.wait();
                    while !quit.load(Relaxed) {
                        for _ in 0..64 {
                            if m.back_edge() != Some(0) {
                                m.stop();
                            }
                        }
                    }
                }
                if m.ret() != Some(0) {
                    m.stop();
                }
                m.publish();
                m.exit();
            });
        }
        ready.wait();
        let mut co = Coordinator::new(&sh);
        let names = sh.live();
        let job = |op: u64, t: u64| Job { op, target: t, call: C::of(Ask::Depth) };
        let limit = Instant::now() + std::time::Duration::from_secs(6);
        for i in 0..iters + 2 {
            sh.make_room_for_replies();
            let (t, d);
            match kind {
                HANDSHAKE | BOXED_HANDSHAKE => {
                    let jobs = names.iter().map(|&x| job(0, x)).collect();
                    let tg = names.clone();
                    t = Instant::now();
                    let asked = sh.submit(Req::Handshake(tg, Ask::Depth, jobs));
                    co.drive();
                    d = ns(t);
                    asked.expect("the Ask is refused");
                }
                CENSUS => {
                    t = Instant::now();
                    let asked = sh.submit(Req::Census);
                    let driven = co.drive();
                    d = ns(t);
                    asked.expect("the Ask is refused");
                    match driven {
                        Some(Driven::Census(_, l)) => assert!(l.len() == 1 && l[0].1 as usize == n, "{l:?}"),
                        _ => panic!(),
                    }
                }
                _ => {
                    let s = sh.install(1);
                    let jobs = names.iter().map(|&x| job(0, x)).collect();
                    t = Instant::now();
                    sh.invalidate(s);
                    let r = co.reclaim(s, jobs);
                    d = ns(t);
                    assert!(r == Reclaimed::Freed, "{r:?}");
                }
            }
            if i >= 2 && w < out.len() {
                out[w] = d;
                w += 1;
            }
            if Instant::now() > limit {
                break;
            }
        }
        quit.store(true, SeqCst);
    });
    assert!((0..sh.board.slots).all(|s| sh.board.c(s).load(SeqCst) == 0));
    w
}

/// `threads` mutators call and return. arg low 16: publish every so many pairs (0 never); bit 16: all call one method, else each its own; bit 17: small tables (2 slots a method, as `monitor run` has)
fn scale<S: Layout, I: Image>(threads: usize, iters: u64, arg: u64, pol: Policy, out: &mut [u64]) -> usize {
    let every = arg & 0xffff;
    let one = arg >> 16 & 1 == 1;
    let small = arg >> 17 & 1 == 1;
    let methods = if small { 4 } else { 256 };
    let slots = if small { 8 } else { 1024 };
    let sh = Shared::<S, I, Query>::new(if small { threads.max(1) } else { 64 }, slots, methods, pol);
    for m in 0..methods {
        sh.install(m);
    }
    let bar = Barrier::new(threads);
    let mut res = vec![0u64; threads];
    std::thread::scope(|sc| {
        for (t, r) in res.iter_mut().enumerate() {
            let (sh, bar) = (&sh, &bar);
            sc.spawn(move || {
                let mut m = sh.start();
                let me = if one { 0 } else { t };
                bar.wait();
                let t0 = Instant::now();
                if every == 0 {
                    for _ in 0..iters {
                        let h = sh.hint(me);
                        m.call(me, h);
                        m.ret();
                    }
                } else {
                    for _ in 0..iters / every {
                        // the code is on the stack at one publication and gone at the next
                        let h = sh.hint(me);
                        m.call(me, h);
                        m.publish();
                        for _ in 1..every {
                            let h = sh.hint(me);
                            m.call(me, h);
                            m.ret();
                        }
                        m.ret();
                        m.publish();
                    }
                }
                *r = ns(t0);
                m.publish();
                m.exit();
            });
        }
    });
    out[..threads].copy_from_slice(&res);
    threads
}
