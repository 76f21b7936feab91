use crate::call::Word;

/// The generator splitmix64.
pub struct Rng(u64);

impl Rng {
    /// A generator for one block of a class.
    pub fn of(class: &str, block: u64) -> Rng {
        let mut rng = Rng(0x4a61_6d63_7572_6665);
        for byte in class.bytes() {
            rng.0 = rng.next() ^ u64::from(byte);
        }
        rng.0 = rng.next() ^ block;
        rng.0 = rng.next();
        rng
    }

    pub(crate) fn next(&mut self) -> u64 {
        self.0 = self.0.wrapping_add(0x9e37_79b9_7f4a_7c15);
        let z = (self.0 ^ (self.0 >> 30)).wrapping_mul(0xbf58_476d_1ce4_e5b9);
        let z = (z ^ (z >> 27)).wrapping_mul(0x94d0_49bb_1331_11eb);
        z ^ (z >> 31)
    }

    /// A number of so many random bits.
    pub(crate) fn bits(&mut self, count: u32) -> u64 {
        if count == 0 {
            0
        } else {
            self.next() >> (64 - count)
        }
    }

    /// A number from `low` to `high`, both included.
    pub(crate) fn within(&mut self, low: i64, high: i64) -> i64 {
        let count = (high - low) as u64 + 1;
        low + ((u128::from(self.next()) * u128::from(count)) >> 64) as i64
    }

    pub fn pick<T: Copy>(&mut self, list: &[T]) -> T {
        list[self.within(0, list.len() as i64 - 1) as usize]
    }

    /// A sign bit, set or not.
    pub(crate) fn sign<W: Word>(&mut self) -> u64 {
        self.bits(1) << (W::BITS - 1)
    }

    /// A number below 2^`most`, each count of digits being as likely as another.
    pub(crate) fn any_size(&mut self, most: u32) -> u64 {
        let digits = self.within(0, most.into());
        self.bits(digits as u32)
    }
}
