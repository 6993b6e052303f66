//! Where to look for names and ids.

/// Numbers from 0 by the hashes of what they stand for, each in the first free slot from the one of its hash on.
pub struct Slots {
    /// A number and 1, or 0 if the slot is free; at least half of them are.
    slots: Vec<u16>,
    /// How far down the highest bits of a hash are to be moved to give a slot.
    shift: u32,
}

impl Slots {
    /// With room for so many numbers.
    pub fn of(count: usize) -> Slots {
        let length = (2 * count).next_power_of_two().max(2);
        Slots { slots: vec![0; length], shift: u64::BITS - length.ilog2() }
    }

    /// The number whose name or id it is, or the free slot where it would be found.
    #[inline(always)]
    pub fn look_up(&self, hash: u64, is_it: impl Fn(usize) -> bool) -> Result<usize, usize> {
        let mut slot = (hash >> self.shift) as usize;
        loop {
            match self.slots[slot] {
                0 => return Err(slot),
                after if is_it(usize::from(after) - 1) => return Ok(usize::from(after) - 1),
                _ => slot = (slot + 1) & (self.slots.len() - 1),
            }
        }
    }

    /// Puts a number into a free slot.
    #[inline(always)]
    pub fn put(&mut self, slot: usize, number: usize) {
        self.slots[slot] = number as u16 + 1;
    }
}

/// A hash of what came before and of one number more; its highest bits are the best.
#[inline(always)]
pub fn mixed(hash: u64, number: u64) -> u64 {
    (hash.rotate_left(29) ^ number).wrapping_mul(0x9E37_79B9_7F4A_7C15)
}
