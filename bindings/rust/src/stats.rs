//! How long stops take: what the waits of this process count.
use crate::sys;
use std::mem::MaybeUninit;
use std::time::Duration;

/// Times of one kind.
#[derive(Clone, Debug, PartialEq, Eq)]
pub struct Times {
    /// Their sum.
    pub sum: Duration,
    /// The greatest of them.
    pub greatest: Duration,
    /// How many were at least 2^i and below 2^(i + 1) nanoseconds, for each i. The first also has those of 0.
    pub powers: [u64; sys::POWERS],
}

impl Times {
    fn of(times: &sys::Times) -> Times {
        Times {
            sum: Duration::from_nanos(times.sum),
            greatest: Duration::from_nanos(times.greatest),
            powers: times.powers,
        }
    }

    /// How many they are.
    pub fn count(&self) -> u64 {
        self.powers.iter().sum()
    }
}

/// What the waits of this process counted since [`Stats::on`], of all systems.
///
/// ```
/// use safepoint::{Safepoints, Stats};
///
/// Stats::on(true);
/// let mut system = Safepoints::new(2, 4, 1)?;
/// system.at_safepoint(|_served| {})?;
/// let stats = Stats::read();
/// assert_eq!(stats.to_safepoint.count(), stats.censuses);
/// # Ok::<(), safepoint::Refusal>(())
/// ```
#[derive(Clone, Debug, PartialEq, Eq)]
#[non_exhaustive]
pub struct Stats {
    /// Handshakes that were closed.
    pub handshakes: u64,
    /// Censuses that were closed.
    pub censuses: u64,
    /// From the beginning of the drive until the last target of a handshake came.
    pub to_handshake: Times,
    /// From the beginning of the drive until all threads were held for a census.
    pub to_safepoint: Times,
    /// Each run of a callback.
    pub callbacks: Times,
    /// How often a wait spun.
    pub spins: u64,
    /// How often a wait yielded.
    pub yields: u64,
    /// How often a wait slept.
    pub naps: u64,
    /// How often a ring found sleepers.
    pub wakes: u64,
}

impl Stats {
    /// Begins to count, from zero, or ends that. Without it a call that waits pays a load and a branch.
    pub fn on(on: bool) {
        // SAFETY: it takes a word alone.
        unsafe { sys::sp_stats_on(on) }
    }

    /// Reads what was counted. Other threads may count meanwhile.
    pub fn read() -> Stats {
        let mut stats = MaybeUninit::<sys::Statistics>::uninit();
        // SAFETY: the call fills all of it.
        let stats = unsafe {
            sys::sp_stats(stats.as_mut_ptr());
            stats.assume_init()
        };
        Stats {
            handshakes: stats.handshakes,
            censuses: stats.censuses,
            to_handshake: Times::of(&stats.to_handshake),
            to_safepoint: Times::of(&stats.to_safepoint),
            callbacks: Times::of(&stats.callbacks),
            spins: stats.spins,
            yields: stats.yields,
            naps: stats.naps,
            wakes: stats.wakes,
        }
    }
}
