//! The codes, by slot, and which slot and method each serial has.

use super::system::{Done, GREATEST};
use std::collections::HashMap;
use std::hash::{BuildHasherDefault, Hasher};

/// Serials are spread already.
#[derive(Default, Clone, Copy)]
pub struct BySerial(u64);

impl Hasher for BySerial {
    fn finish(&self) -> u64 {
        self.0
    }

    fn write(&mut self, _: &[u8]) {
        unreachable!()
    }

    fn write_u64(&mut self, serial: u64) {
        self.0 = serial.wrapping_mul(0x9E37_79B9_7F4A_7C15).rotate_left(26);
    }
}

#[derive(Clone, Copy, PartialEq)]
pub enum State {
    InUse,
    NotEntrant,
    Zombie,
}

#[derive(Clone, Copy)]
pub struct Code {
    pub serial: u64,
    pub method: u16,
    pub state: State,
    /// The moment of its invalidation.
    pub moment: u64,
    /// A bit of each place that was looked at.
    pub looked: u64,
    pub count: u32,
}

/// A set of slots.
pub struct Slots([u64; 16]);

impl Slots {
    pub fn below(count: usize) -> Slots {
        let mut slots = Slots([0; 16]);
        (0..count).for_each(|slot| slots.put(slot as u16));
        slots
    }

    pub fn put(&mut self, slot: u16) {
        self.0[slot as usize >> 6] |= 1 << (slot & 63);
    }

    pub fn remove(&mut self, slot: u16) {
        self.0[slot as usize >> 6] &= !(1 << (slot & 63));
    }

    pub fn least(&self) -> Option<u16> {
        let word = self.0.iter().position(|word| *word != 0)?;
        Some((word << 6) as u16 | self.0[word].trailing_zeros() as u16)
    }

    pub fn iter(&self) -> impl Iterator<Item = u16> + '_ {
        (0..16u16).flat_map(|word| {
            let mut left = self.0[word as usize];
            std::iter::from_fn(move || {
                let bit = (left != 0).then(|| left.trailing_zeros() as u16)?;
                left &= left - 1;
                Some(word << 6 | bit)
            })
        })
    }
}

pub struct Codes {
    by_slot: Vec<Code>,
    slot_of: HashMap<u64, u16, BuildHasherDefault<BySerial>>,
    free: Slots,
    used: Slots,
    /// The serial of each method's code in use, or 0.
    pub current: Vec<u64>,
    pub next: u64,
}

impl Codes {
    pub fn new(slots: usize, methods: usize) -> Codes {
        let none = Code { serial: 0, method: 0, state: State::Zombie, moment: 0, looked: 0, count: 0 };
        Codes {
            by_slot: vec![none; slots],
            slot_of: HashMap::with_capacity_and_hasher(2 * slots, Default::default()),
            free: Slots::below(slots),
            used: Slots::below(0),
            current: vec![0; methods],
            next: 1,
        }
    }

    pub fn was_given(&self, serial: u64) -> bool {
        serial != 0 && serial < self.next
    }

    #[inline]
    pub fn slot(&self, serial: u64) -> Option<u16> {
        self.slot_of.get(&serial).copied()
    }

    pub fn get(&self, serial: u64) -> Result<&Code, &'static str> {
        self.slot(serial).map(|slot| &self.by_slot[slot as usize]).ok_or("Unknown")
    }

    pub fn get_mut(&mut self, serial: u64) -> Result<&mut Code, &'static str> {
        self.slot(serial).map(|slot| &mut self.by_slot[slot as usize]).ok_or("Unknown")
    }

    pub fn change_count(&mut self, slot: u16, by: i16) {
        let code = &mut self.by_slot[slot as usize];
        code.count = code.count.wrapping_add_signed(i32::from(by));
        if code.count == 0 {
            self.used.remove(slot);
        } else {
            self.used.put(slot);
        }
    }

    /// Serials and counts of all codes that stand on stacks, by rising serial.
    pub fn counts(&self) -> Vec<(u64, u32)> {
        let mut counts: Vec<_> = self.used.iter().map(|slot| &self.by_slot[slot as usize]).map(|code| (code.serial, code.count)).collect();
        counts.sort_unstable();
        counts
    }

    /// New code of the method. What the method had in use is invalidated at the moment.
    pub fn install(&mut self, method: usize, moment: u64) -> Result<u64, &'static str> {
        let slot = self.free.least().ok_or("TableFull")?;
        if self.next > GREATEST {
            return Err("SerialsSpent");
        }
        let before = self.current[method];
        if before != 0 {
            self.invalidate(before, moment)?;
        }
        let serial = self.next;
        self.next += 1;
        self.free.remove(slot);
        self.by_slot[slot as usize] = Code { serial, method: method as u16, state: State::InUse, moment: 0, looked: 0, count: 0 };
        self.slot_of.insert(serial, slot);
        self.current[method] = serial;
        Ok(serial)
    }

    pub fn invalidate(&mut self, serial: u64, moment: u64) -> Done {
        let code = self.get_mut(serial)?;
        if code.state != State::InUse {
            return Err("NotInUse");
        }
        (code.state, code.moment, code.looked) = (State::NotEntrant, moment, 0);
        let method = code.method as usize;
        self.current[method] = 0;
        Ok(())
    }

    pub fn free(&mut self, serial: u64) -> Done {
        let slot = self.slot(serial).ok_or("Unknown")?;
        if self.by_slot[slot as usize].state != State::Zombie {
            return Err("NotZombie");
        }
        self.slot_of.remove(&serial);
        self.free.put(slot);
        Ok(())
    }
}
