//! The protocol in plain Rust: words, berths, desk, mutators, coordinator. No proofs, the same atomic steps. An Ask is refused as the product
//! refuses it, but for want of room or memory; there are few other refusals.
//! `S` is the layout of the words, `I` the image of a stack, and `C` what a job calls.
use crate::callback::{Ask, Callback};
use crate::image::*;
use crate::rsync::{Condvar, Mutex};
use std::collections::VecDeque;
use std::sync::atomic::{AtomicU64, Ordering::*};

/// How words lie in a table, in u64: the distance of two words of a kind, and whether kinds begin at lines of their own.
pub trait Layout: Send + Sync + 'static {
    const E: usize;
    const C: usize;
    const A: usize;
    const P: usize;
    const GAP: usize;
}
/// as `atomic_table` lays words that are numbered one after another
pub struct Packed;
impl Layout for Packed {
    const E: usize = 1;
    const C: usize = 1;
    const A: usize = 1;
    const P: usize = 1;
    const GAP: usize = 1;
}
/// E and C packed, each kind on its own lines, one line a word for A, G and P
pub struct Split;
impl Layout for Split {
    const E: usize = 1;
    const C: usize = 1;
    const A: usize = 8;
    const P: usize = 8;
    const GAP: usize = 16;
}
#[repr(align(128))]
pub struct Line([AtomicU64; 16]);
pub struct Words {
    p: *const AtomicU64,
    n: usize,
    _keep: Box<[Line]>,
}
unsafe impl Send for Words {}
unsafe impl Sync for Words {}
impl Words {
    pub fn new(n: usize) -> Self {
        let v: Box<[Line]> = (0..n.div_ceil(16)).map(|_| Line(std::array::from_fn(|_| AtomicU64::new(0)))).collect();
        Words { p: v.as_ptr() as *const AtomicU64, n, _keep: v }
    }
    #[inline(always)]
    pub fn at(&self, i: usize) -> &AtomicU64 {
        debug_assert!(i < self.n);
        unsafe { &*self.p.add(i) }
    }
}

const IN_USE: u64 = 1;
const NOT_ENTRANT: u64 = 2;
const ZOMBIE: u64 = 3;
#[inline(always)]
fn entry(serial: u64, st: u64) -> u64 {
    serial << 2 | st
}

/// An entry and a count for each slot, a moment for each place, and the board's moment, in one block, as one table has them.
pub struct Board<S> {
    w: Words,
    co: usize,
    ao: usize,
    go: usize,
    pub slots: usize,
    _s: std::marker::PhantomData<S>,
}
impl<S: Layout> Board<S> {
    fn new(slots: usize, places: usize) -> Self {
        let up = |n: usize| n.div_ceil(S::GAP) * S::GAP;
        let co = up(slots * S::E);
        let ao = up(co + slots * S::C);
        let go = up(ao + places * S::A);
        Board { w: Words::new(go + S::GAP), co, ao, go, slots, _s: std::marker::PhantomData }
    }
    #[inline(always)]
    pub fn e(&self, i: usize) -> &AtomicU64 {
        self.w.at(i * S::E)
    }
    #[inline(always)]
    pub fn c(&self, i: usize) -> &AtomicU64 {
        self.w.at(self.co + i * S::C)
    }
    #[inline(always)]
    pub fn a(&self, i: usize) -> &AtomicU64 {
        self.w.at(self.ao + i * S::A)
    }
    #[inline(always)]
    pub fn g(&self) -> &AtomicU64 {
        self.w.at(self.go)
    }
}
#[derive(Clone, Copy, PartialEq, Eq, Debug)]
pub enum St {
    InJava,
    InNative,
    AtPoll,
    Serving,
}
pub struct Job<C> {
    pub op: u64,
    pub target: u64,
    pub call: C,
}
pub struct Done {
    pub op: u64,
    pub target: u64,
    pub reply: u64,
}
pub struct Body<I> {
    pub name: u64,
    pub place: usize,
    pub image: I,
    pub last: u64,
}
struct BerthIn<I, C> {
    name: u64,
    body: Option<Body<I>>,
    job: Option<Job<C>>,
    census: u64,
    waiting: bool,
}
#[repr(align(128))]
pub struct Berth<I, C> {
    m: Mutex<BerthIn<I, C>>,
    cv: Condvar,
}

/// What a thread replied to an operation: the operation, the thread's name and the reply. It is only written here.
pub type Reply = (u64, u64, u64);
pub enum Req<C> {
    Handshake(Vec<u64>, Ask, Vec<Job<C>>),
    Census,
}
/// Why an Ask is refused, in the order of the tests: as the product refuses it.
#[derive(Clone, Copy, PartialEq, Eq, Debug)]
pub enum Refused {
    Spent,
    QueueFull,
    NoTargets,
    BadTargets,
}
const LAST: u64 = (1 << 40) - 1;
const WAITING: usize = 64;
const TARGETS: usize = 64;

fn are_distinct(names: &[u64]) -> bool {
    names.is_sorted_by(|a, b| a < b) || (1..names.len()).all(|i| !names[..i].contains(&names[i]))
}
impl<C> Req<C> {
    fn has_targets(&self) -> bool {
        !matches!(self, Req::Handshake(targets, ..) if targets.is_empty())
    }
    /// The targets are few and distinct, and the jobs are one for each in order, with the request's ask.
    fn is_good<I: Image>(&self) -> bool
    where
        C: Callback<I>,
    {
        match self {
            Req::Handshake(targets, ask, jobs) => {
                targets.len() <= TARGETS
                    && are_distinct(targets)
                    && targets.len() == jobs.len()
                    && targets.iter().zip(jobs).all(|(name, job)| job.target == *name && job.call.asks() == *ask)
            }
            Req::Census => true,
        }
    }
}
struct Code {
    serial: u64,
    state: u64,
    method: u32,
    inval: u64,
    looked: u64,
}
pub struct Desk<C> {
    names: [u64; 64],
    next_name: u64,
    live: u64,
    queue: VecDeque<(u64, Req<C>)>,
    next_op: u64,
    next_serial: u64,
    open: u64,
    open_targets: u64,
    done: u64,
    codes: Vec<Code>,
    current: Vec<u64>,
    moment: u64,
    pub replies: Vec<Reply>,
}
#[derive(Clone, Copy, PartialEq, Eq, Debug)]
pub enum Called {
    Compiled(u64),
    Interpreted,
}
#[derive(Debug, PartialEq, Eq)]
pub enum Reclaimed {
    Freed,
    Used(u64),
    Late(usize),
}

/// What a thread does after it has served itself, and how the coordinator waits for a thread in Java.
#[derive(Clone, Copy)]
pub struct Policy {
    pub yield_after_serve: u32,
    pub spins: u32,
    pub yields: u32,
    pub nap: u64,
    pub late_wakes: bool,
}

pub struct Shared<S: Layout, I, C> {
    pub board: Board<S>,
    poll: Words,
    hints: Words,
    berths: Box<[Berth<I, C>]>,
    desk: Mutex<Desk<C>>,
    desk_cv: Condvar,
    pub places: usize,
    pub methods: usize,
    pub policy: Policy,
}
impl<S: Layout, I: Image, C: Callback<I>> Shared<S, I, C> {
    pub fn new(places: usize, slots: usize, methods: usize, policy: Policy) -> Self {
        let board = Board::new(slots, places);
        board.g().store(1, SeqCst);
        let berths = (0..places)
            .map(|_| Berth { m: Mutex::new(BerthIn { name: 0, body: None, job: None, census: 0, waiting: false }), cv: Condvar::new() })
            .collect();
        let desk = Desk {
            names: [0; 64],
            next_name: 1,
            live: 0,
            queue: VecDeque::with_capacity(64),
            next_op: 1,
            next_serial: 1,
            open: 0,
            open_targets: 0,
            done: 0,
            codes: (0..slots).map(|_| Code { serial: 0, state: 0, method: 0, inval: 0, looked: 0 }).collect(),
            current: vec![0; methods],
            moment: 1,
            replies: Vec::with_capacity(1_000_000),
        };
        Shared {
            board,
            poll: Words::new(places * S::P),
            hints: Words::new(methods),
            berths,
            desk: Mutex::new(desk),
            desk_cv: Condvar::new(),
            places,
            methods,
            policy,
        }
    }
    pub fn make_room_for_replies(&self) {
        let mut d = self.desk.lock().unwrap();
        if d.replies.len() > 900_000 {
            d.replies.clear();
        }
    }
    pub fn start(&self) -> Mutator<'_, S, I, C> {
        let (name, place) = {
            let mut d = self.desk.lock().unwrap();
            let place = (!d.live).trailing_zeros() as usize;
            assert!(place < self.places);
            let name = d.next_name;
            d.next_name += 1;
            d.names[place] = name;
            d.live |= 1 << place;
            (name, place)
        };
        let g = self.board.g().load(SeqCst);
        self.board.a(place).store(g, SeqCst);
        self.berths[place].m.lock().unwrap().name = name;
        Mutator { sh: self, body: Some(Body { name, place, image: I::new(self.board.slots), last: 0 }), place, state: St::InJava }
    }
    pub fn live(&self) -> Vec<u64> {
        let d = self.desk.lock().unwrap();
        let mut v: Vec<u64> = (0..self.places).filter(|p| d.live >> p & 1 == 1).map(|p| d.names[p]).collect();
        v.sort_unstable();
        v
    }
    pub fn install(&self, method: usize) -> u64 {
        let mut d = self.desk.lock().unwrap();
        let slot = (0..self.board.slots).find(|&s| d.codes[s].state == 0).unwrap();
        let serial = d.next_serial;
        d.next_serial += 1;
        d.codes[slot] = Code { serial, state: IN_USE, method: method as u32, inval: 0, looked: 0 };
        self.board.e(slot).store(entry(serial, IN_USE), SeqCst);
        d.current[method] = serial;
        self.hints.at(method).store(serial << 16 | (slot as u64 + 1), Relaxed);
        serial
    }
    fn slot_of(d: &Desk<C>, serial: u64) -> usize {
        d.codes.iter().position(|c| c.serial == serial && c.state != 0).unwrap()
    }
    pub fn invalidate(&self, serial: u64) {
        let mut d = self.desk.lock().unwrap();
        let s = Self::slot_of(&d, serial);
        let m = d.moment;
        let c = &mut d.codes[s];
        c.state = NOT_ENTRANT;
        c.inval = m;
        c.looked = 0;
        let me = c.method as usize;
        self.board.e(s).store(entry(serial, NOT_ENTRANT), SeqCst);
        if d.current[me] == serial {
            d.current[me] = 0;
            self.hints.at(me).store(0, Relaxed);
        }
    }
    #[inline(always)]
    pub fn hint(&self, m: usize) -> Option<CodeId> {
        let w = self.hints.at(m).load(Relaxed);
        if w == 0 { None } else { Some(CodeId { slot: (w & 0xffff) as u32 - 1, serial: w >> 16 }) }
    }
    pub fn submit(&self, mut req: Req<C>) -> Result<u64, Refused> {
        let mut d = self.desk.lock().unwrap();
        let n = d.next_op;
        if n > LAST {
            return Err(Refused::Spent);
        }
        if d.queue.len() >= WAITING {
            return Err(Refused::QueueFull);
        }
        if !req.has_targets() {
            return Err(Refused::NoTargets);
        }
        if !req.is_good() {
            return Err(Refused::BadTargets);
        }
        d.next_op += 1;
        if let Req::Handshake(_, _, jobs) = &mut req {
            for job in jobs {
                job.op = n;
            }
        }
        d.queue.push_back((n, req));
        Ok(n)
    }
    fn finish(&self, body: &Body<I>, done: Done) -> bool {
        let mut d = self.desk.lock().unwrap();
        debug_assert!(d.open == done.op && d.names[body.place] == done.target && d.done >> body.place & 1 == 0);
        d.done |= 1 << body.place;
        d.replies.push((done.op, done.target, done.reply));
        let all = d.open_targets & d.live & !d.done == 0;
        drop(d);
        if all {
            self.desk_cv.notify_one();
        }
        all
    }
    #[inline(always)]
    fn publish_body(&self, b: &mut Body<I>) {
        let g = self.board.g().load(SeqCst);
        let c = &self.board;
        b.image.changes(|code, by| {
            if by > 0 {
                c.c(code.slot as usize).fetch_add(by as u64, SeqCst);
            } else {
                c.c(code.slot as usize).fetch_sub(-by as u64, SeqCst);
            }
        });
        self.board.a(b.place).store(g, SeqCst);
    }
    fn clear(&self, b: &mut Body<I>, n: u64) {
        if self.poll.at(b.place * S::P).compare_exchange(n, 0, SeqCst, SeqCst).is_ok() {
            b.last = n;
        }
    }
}

pub struct Mutator<'a, S: Layout, I: Image, C> {
    pub sh: &'a Shared<S, I, C>,
    pub body: Option<Body<I>>,
    place: usize,
    state: St,
}
impl<S: Layout, I: Image, C: Callback<I>> Mutator<'_, S, I, C> {
    /// `call` with a hint. None for a refusal.
    #[inline(always)]
    pub fn call(&mut self, m: usize, hint: Option<CodeId>) -> Option<Called> {
        if self.state != St::InJava || m >= self.sh.methods {
            return None;
        }
        let b = unsafe { self.body.as_mut().unwrap_unchecked() };
        if b.image.depth() >= 256 {
            return None;
        }
        if let Some(c) = hint {
            if self.sh.board.e(c.slot as usize).load(SeqCst) == entry(c.serial, IN_USE) {
                b.image.push(Frame { method: m as u32, slot: c.slot, serial: c.serial });
                return Some(Called::Compiled(c.serial));
            }
        }
        b.image.push(Frame { method: m as u32, slot: INTERP, serial: 0 });
        Some(Called::Interpreted)
    }
    /// Some(0) is Go, Some(n) is Stop(n), None a refusal.
    #[inline(always)]
    pub fn ret(&mut self) -> Option<u64> {
        if self.state != St::InJava {
            return None;
        }
        let b = unsafe { self.body.as_mut().unwrap_unchecked() };
        b.image.pop()?;
        self.cross()
    }
    #[inline(always)]
    pub fn back_edge(&mut self) -> Option<u64> {
        if self.state != St::InJava {
            return None;
        }
        self.cross()
    }
    #[cold]
    #[inline(never)]
    fn armed(&mut self) {
        self.state = St::AtPoll;
    }
    #[inline(always)]
    fn cross(&mut self) -> Option<u64> {
        let n = self.sh.poll.at(self.place * S::P).load(SeqCst);
        if n != 0 {
            self.armed();
        }
        Some(n)
    }
    #[inline(always)]
    pub fn publish(&mut self) -> bool {
        if self.state != St::InJava {
            return false;
        }
        self.sh.publish_body(unsafe { self.body.as_mut().unwrap_unchecked() });
        true
    }
    pub fn to_native(&mut self) {
        let mut g = self.sh.berths[self.place].m.lock().unwrap();
        g.body = self.body.take();
        let w = g.waiting;
        drop(g);
        self.state = St::InNative;
        if w {
            self.sh.berths[self.place].cv.notify_all();
        }
    }
    pub fn from_native(&mut self) -> u64 {
        let be = &self.sh.berths[self.place];
        let mut g = be.m.lock().unwrap();
        while g.body.is_none() {
            g = be.cv.wait(g).unwrap();
        } // held
        self.body = g.body.take();
        drop(g);
        let n = self.sh.poll.at(self.place * S::P).load(SeqCst);
        self.state = if n == 0 { St::InJava } else { St::AtPoll };
        n
    }
    /// After a Stop. The body goes into the berth and comes back; what is told is served by this thread, unless the coordinator was first.
    pub fn stop(&mut self) {
        let be = &self.sh.berths[self.place];
        loop {
            {
                let mut g = be.m.lock().unwrap();
                g.body = self.body.take();
                let w = g.waiting && g.census != 0;
                drop(g);
                if w {
                    be.cv.notify_all();
                }
            }
            let (job, ()) = {
                let mut g = be.m.lock().unwrap();
                while g.body.is_none() || g.census != 0 {
                    g = be.cv.wait(g).unwrap();
                }
                self.body = g.body.take();
                let j = g.job.take();
                let w = g.waiting;
                drop(g);
                if w {
                    be.cv.notify_all();
                }
                (j, ())
            };
            self.state = St::Serving;
            let mut all = true;
            if let Some(j) = job {
                let b = self.body.as_mut().unwrap();
                self.sh.publish_body(b);
                let reply = j.call.answer(&b.image);
                all = self.sh.finish(b, Done { op: j.op, target: j.target, reply });
                self.sh.clear(b, j.op);
            }
            let n = self.sh.poll.at(self.place * S::P).load(SeqCst);
            if n == 0 {
                self.state = St::InJava;
                if !all {
                    let p = self.sh.policy;
                    if p.nap != 0 {
                        std::thread::sleep(std::time::Duration::from_nanos(p.nap));
                    } else {
                        for _ in 0..p.yield_after_serve {
                            std::thread::yield_now();
                        }
                    }
                }
                return;
            }
            self.state = St::AtPoll;
        }
    }
    pub fn exit(mut self) {
        loop {
            self.publish();
            let n = self.sh.poll.at(self.place * S::P).load(SeqCst);
            if n != 0 {
                self.state = St::AtPoll;
                self.stop();
                continue;
            }
            let be = &self.sh.berths[self.place];
            let mut g = be.m.lock().unwrap();
            if g.job.is_some() || g.census != 0 {
                drop(g);
                self.state = St::AtPoll;
                self.stop();
                continue;
            }
            let b = self.body.take().unwrap();
            assert!(b.image.depth() == 0);
            g.name = 0;
            self.sh.board.a(self.place).store(0, SeqCst);
            drop(g);
            let mut d = self.sh.desk.lock().unwrap();
            d.live &= !(1 << self.place);
            drop(d);
            self.sh.desk_cv.notify_one();
            return;
        }
    }
}

pub enum Driven {
    Handshake(u64),
    Census(u64, Vec<(u64, u32)>),
}
pub struct Coordinator<'a, S: Layout, I: Image, C> {
    pub sh: &'a Shared<S, I, C>,
    bodies: Vec<(usize, Body<I>)>,
    counts: Vec<u32>,
}
impl<'a, S: Layout, I: Image, C: Callback<I>> Coordinator<'a, S, I, C> {
    pub fn new(sh: &'a Shared<S, I, C>) -> Self {
        Coordinator { sh, bodies: Vec::with_capacity(64), counts: vec![0; sh.board.slots] }
    }
    /// place of a live target, under the desk's lock
    fn find(&self, name: u64) -> Option<usize> {
        let d = self.sh.desk.lock().unwrap();
        (0..64).find(|&p| d.names[p] == name).filter(|p| d.live & d.open_targets >> p & 1 == 1)
    }
    /// Waits until the berth bears a body, or until nothing is left to do there. Spins first, on the poll word by plain
    /// looks (no lock taken), as long as the drive's budget lasts; then sleeps on the berth's Condvar.
    fn await_body(&self, place: usize, op: u64, census: bool, budget: &mut u32) -> Option<(Body<I>, Option<Job<C>>)> {
        let be = &self.sh.berths[place];
        let p = self.sh.policy;
        let mut turn = 0u32;
        let word = self.sh.poll.at(place * S::P);
        loop {
            let mut g = be.m.lock().unwrap();
            if g.name == 0 || (!census && g.job.is_none()) {
                return None;
            }
            if g.body.is_some() {
                g.waiting = false;
                let b = g.body.take().unwrap();
                let j = g.job.take();
                return Some((b, j));
            }
            if *budget > 0 {
                drop(g);
                for _ in 0..if census { 32 } else { 1024 } {
                    if *budget == 0 {
                        break;
                    }
                    *budget -= 1;
                    if !census && word.load(Relaxed) != op {
                        return None;
                    }
                    std::hint::spin_loop();
                }
                continue;
            }
            if turn < p.yields {
                drop(g);
                std::thread::yield_now();
                turn += 1;
                continue;
            }
            g.waiting = true;
            g = be.cv.wait(g).unwrap();
            g.waiting = false;
            drop(g);
        }
    }
    fn give_back(&self, place: usize, b: Body<I>, wake: bool) {
        let be = &self.sh.berths[place];
        let mut g = be.m.lock().unwrap();
        g.body = Some(b);
        g.census = 0;
        drop(g);
        if wake {
            be.cv.notify_all();
        }
    }
    pub fn drive(&mut self) -> Option<Driven> {
        let sh = self.sh;
        let (op, req) = {
            let mut d = sh.desk.lock().unwrap();
            let (op, req) = d.queue.pop_front()?;
            d.open = op;
            d.done = 0;
            d.open_targets = match &req {
                Req::Handshake(t, ..) => {
                    let mut m = 0u64;
                    for p in 0..64 {
                        if d.live >> p & 1 == 1 && t.contains(&d.names[p]) {
                            m |= 1 << p;
                        }
                    }
                    m
                }
                Req::Census => d.live,
            };
            (op, req)
        };
        match req {
            Req::Handshake(targets, _, jobs) => {
                let mut places = [usize::MAX; 64];
                let mut budget = sh.policy.spins;
                for (i, (&name, job)) in targets.iter().zip(jobs).enumerate() {
                    // tell all before any is served
                    let mut job = Some(job);
                    while let Some(p) = self.find(name) {
                        let mut g = sh.berths[p].m.lock().unwrap();
                        if g.name != name {
                            drop(g);
                            std::thread::yield_now();
                            continue;
                        }
                        g.job = job.take();
                        sh.poll.at(p * S::P).store(op, SeqCst);
                        drop(g);
                        places[i] = p;
                        break;
                    }
                }
                for i in 0..targets.len() {
                    let p = places[i];
                    if p == usize::MAX {
                        continue;
                    }
                    if let Some((mut b, Some(j))) = self.await_body(p, op, false, &mut budget) {
                        sh.publish_body(&mut b);
                        let reply = j.call.answer(&b.image);
                        sh.finish(&b, Done { op, target: j.target, reply });
                        sh.clear(&mut b, op);
                        self.give_back(p, b, true);
                    }
                }
                let mut turn = 0;
                let mut d = sh.desk.lock().unwrap();
                while d.open_targets & d.live & !d.done != 0 {
                    if turn < sh.policy.yields {
                        drop(d);
                        std::thread::yield_now();
                        turn += 1;
                        d = sh.desk.lock().unwrap();
                        continue;
                    }
                    d = sh.desk_cv.wait(d).unwrap();
                }
                d.open = 0;
                Some(Driven::Handshake(op))
            }
            Req::Census => {
                let mask = { sh.desk.lock().unwrap().open_targets };
                let mut budget = sh.policy.spins;
                let mut m = mask;
                while m != 0 {
                    let p = m.trailing_zeros() as usize;
                    m &= m - 1;
                    let mut g = sh.berths[p].m.lock().unwrap();
                    if g.name != 0 {
                        g.census = op;
                        sh.poll.at(p * S::P).store(op, SeqCst);
                    }
                }
                let mut m = mask;
                while m != 0 {
                    let p = m.trailing_zeros() as usize;
                    m &= m - 1;
                    if let Some((mut b, _)) = self.await_body(p, op, true, &mut budget) {
                        sh.publish_body(&mut b);
                        self.bodies.push((p, b));
                    }
                }
                // operate: at an operated safepoint the index is the stacks, so C words would do; counted from the stacks
                for (_, b) in &self.bodies {
                    for f in b.image.frames() {
                        if f.slot != INTERP {
                            self.counts[f.slot as usize] += 1;
                        }
                    }
                }
                let d = sh.desk.lock().unwrap();
                let mut list: Vec<(u64, u32)> = Vec::with_capacity(16);
                for (s, c) in self.counts.iter_mut().enumerate() {
                    if *c != 0 {
                        list.push((d.codes[s].serial, *c));
                        *c = 0;
                    }
                }
                list.sort_unstable();
                drop(d);
                while let Some((p, mut b)) = self.bodies.pop() {
                    sh.clear(&mut b, op);
                    self.give_back(p, b, !sh.policy.late_wakes);
                }
                let mut d = sh.desk.lock().unwrap();
                d.open = 0;
                drop(d);
                if sh.policy.late_wakes {
                    let mut m = mask;
                    while m != 0 {
                        let p = m.trailing_zeros() as usize;
                        m &= m - 1;
                        sh.berths[p].cv.notify_all();
                    }
                }
                Some(Driven::Census(op, list))
            }
        }
    }
    pub fn reclaim(&mut self, serial: u64, jobs: Vec<Job<C>>) -> Reclaimed {
        let sh = self.sh;
        let mut asked = false;
        if let Some(first) = jobs.first() {
            let ask = first.call.asks();
            let targets = jobs.iter().map(|job| job.target).collect();
            sh.submit(Req::Handshake(targets, ask, jobs)).expect("the Ask is refused");
            asked = true;
        }
        let slot = {
            let mut d = sh.desk.lock().unwrap();
            d.moment += 1;
            sh.board.g().fetch_add(1, SeqCst);
            Shared::<S, I, C>::slot_of(&d, serial)
        };
        if asked {
            self.drive();
        }
        let mut d = sh.desk.lock().unwrap();
        let mut late = None;
        for p in 0..sh.places {
            if d.codes[slot].looked >> p & 1 == 1 {
                continue;
            }
            let a = sh.board.a(p).load(SeqCst);
            if a == 0 || a > d.codes[slot].inval {
                d.codes[slot].looked |= 1 << p;
            } else if late.is_none() {
                late = Some(p);
            }
        }
        if let Some(p) = late {
            return Reclaimed::Late(p);
        }
        let used = sh.board.c(slot).load(SeqCst);
        if used != 0 {
            return Reclaimed::Used(used);
        }
        sh.board.e(slot).store(entry(serial, ZOMBIE), SeqCst);
        sh.board.e(slot).store(entry(serial, 0), SeqCst);
        d.codes[slot].state = 0;
        Reclaimed::Freed
    }
}
