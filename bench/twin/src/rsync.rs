//! Mutex and Condvar as the kit's library has them (same words, spins and futex calls),
//! so that their cost can be told from std's.
use std::cell::UnsafeCell;
use std::ops::{Deref, DerefMut};
use std::sync::atomic::{AtomicU64, Ordering::SeqCst};
unsafe extern "C" {
    fn syscall(n: i64, ...) -> i64;
}
const SYS_FUTEX: i64 = 202;
pub fn park(w: &AtomicU64, seen: u32) {
    unsafe {
        syscall(SYS_FUTEX, w as *const _, 128i64, seen as i64, 0i64, 0i64, 0i64);
    }
}
pub fn wake(w: *const AtomicU64, n: i32) {
    unsafe {
        syscall(SYS_FUTEX, w, 129i64, n as i64, 0i64, 0i64, 0i64);
    }
}

pub struct Mutex<T> {
    free: AtomicU64,
    value: UnsafeCell<T>,
}
unsafe impl<T: Send> Send for Mutex<T> {}
unsafe impl<T: Send> Sync for Mutex<T> {}
pub struct MutexGuard<'a, T> {
    m: &'a Mutex<T>,
}
impl<T> Mutex<T> {
    pub const fn new(v: T) -> Self {
        Mutex { free: AtomicU64::new(1), value: UnsafeCell::new(v) }
    }
    fn cas(&self, a: u64, b: u64) -> u64 {
        match self.free.compare_exchange(a, b, SeqCst, SeqCst) {
            Ok(x) => x,
            Err(x) => x,
        }
    }
    fn spin(&self) -> u64 {
        for _ in 0..100u32 {
            let s = self.free.load(SeqCst);
            if s != 0 {
                return s;
            }
            std::hint::spin_loop();
        }
        0
    }
    #[inline]
    pub fn lock(&self) -> Result<MutexGuard<'_, T>, ()> {
        if self.cas(1, 0) == 1 {
            return Ok(MutexGuard { m: self });
        }
        self.slow();
        Ok(MutexGuard { m: self })
    }
    #[cold]
    fn slow(&self) {
        let mut seen = self.spin();
        if seen == 1 && self.cas(1, 0) == 1 {
            return;
        }
        let mut slept = 0u64;
        loop {
            if seen == 1 || (seen == 4 && slept != 0) {
                if self.cas(seen, 2) == seen {
                    return;
                }
                seen = self.free.load(SeqCst);
                continue;
            }
            let wanted = if slept < 2 { 2 } else { 3 };
            if seen < wanted {
                let f = self.cas(seen, wanted);
                if f != seen {
                    seen = f;
                    continue;
                }
                seen = wanted;
            }
            park(&self.free, seen as u32);
            slept += 1;
            seen = self.spin();
        }
    }
    fn release(&self) {
        if self.cas(0, 1) != 0 {
            if self.cas(2, 1) != 2 {
                self.free.swap(4, SeqCst);
            }
            wake(&self.free, 1);
        }
    }
}
impl<T> Deref for MutexGuard<'_, T> {
    type Target = T;
    fn deref(&self) -> &T {
        unsafe { &*self.m.value.get() }
    }
}
impl<T> DerefMut for MutexGuard<'_, T> {
    fn deref_mut(&mut self) -> &mut T {
        unsafe { &mut *self.m.value.get() }
    }
}
impl<T> Drop for MutexGuard<'_, T> {
    #[inline]
    fn drop(&mut self) {
        self.m.release();
    }
}
pub struct Condvar {
    seq: AtomicU64,
    sleepers: AtomicU64,
}
impl Condvar {
    pub const fn new() -> Self {
        Condvar { seq: AtomicU64::new(0), sleepers: AtomicU64::new(0) }
    }
    pub fn wait<'a, T>(&self, g: MutexGuard<'a, T>) -> Result<MutexGuard<'a, T>, ()> {
        let seen = self.seq.load(SeqCst);
        let m = g.m;
        drop(g);
        self.sleepers.fetch_add(1, SeqCst);
        park(&self.seq, seen as u32);
        self.sleepers.fetch_sub(1, SeqCst);
        m.lock()
    }
    pub fn notify_one(&self) {
        self.seq.fetch_add(1, SeqCst);
        if self.sleepers.load(SeqCst) != 0 {
            wake(&self.seq, 1);
        }
    }
    pub fn notify_all(&self) {
        self.seq.fetch_add(1, SeqCst);
        if self.sleepers.load(SeqCst) != 0 {
            wake(&self.seq, i32::MAX);
        }
    }
}
