//! The generator. Whole numbers of fixed width only, so that a seed gives the same lines on every machine.

/// The ends of an i32.
pub(crate) const LEAST: i64 = i32::MIN as i64;
pub(crate) const GREATEST: i64 = i32::MAX as i64;

/// Numbers that the port's rules name as limits.
#[rustfmt::skip]
pub(crate) const NAMED: [i64; 11] = [
    0, 1, -1, -(1 << 15), (1 << 15) - 1, -(1 << 28), (1 << 28) - 1, -(1 << 30), (1 << 30) - 1, LEAST, GREATEST,
];

pub(crate) fn to_word(value: i64) -> i64 {
    value.clamp(LEAST, GREATEST)
}

pub(crate) fn to_half(value: i64) -> i64 {
    value.clamp(i64::from(i16::MIN), i64::from(i16::MAX))
}

pub(crate) struct Random(u64);

impl Random {
    pub(crate) fn new(seed: u64) -> Self {
        Self(seed)
    }

    /// splitmix64
    pub(crate) fn bits(&mut self) -> u64 {
        self.0 = self.0.wrapping_add(0x9E37_79B9_7F4A_7C15);
        let mut z = self.0;
        z = (z ^ (z >> 30)).wrapping_mul(0xBF58_476D_1CE4_E5B9);
        z = (z ^ (z >> 27)).wrapping_mul(0x94D0_49BB_1331_11EB);
        z ^ (z >> 31)
    }

    pub(crate) fn below(&mut self, count: u64) -> u64 {
        ((u128::from(self.bits()) * u128::from(count)) >> 64) as u64
    }

    /// Both ends are included.
    pub(crate) fn between(&mut self, low: i64, high: i64) -> i64 {
        low + self.below((high - low + 1) as u64) as i64
    }

    pub(crate) fn one_in(&mut self, count: u64) -> bool {
        self.below(count) == 0
    }

    pub(crate) fn flag(&mut self) -> bool {
        self.one_in(2)
    }

    pub(crate) fn pick<T: Copy>(&mut self, from: &[T]) -> T {
        from[self.below(from.len() as u64) as usize]
    }

    /// One of these, or one from low to high.
    pub(crate) fn pick_or(&mut self, from: &[i64], low: i64, high: i64) -> i64 {
        match self.below(from.len() as u64 + 1) as usize {
            at if at < from.len() => from[at],
            _ => self.between(low, high),
        }
    }

    pub(crate) fn shuffle<T>(&mut self, items: &mut [T]) {
        for last in (1..items.len()).rev() {
            items.swap(last, self.below(last as u64 + 1) as usize);
        }
    }

    /// Any i32: uniform, small, next to a power of two, next to a limit.
    pub(crate) fn word(&mut self) -> i64 {
        match self.below(4) {
            0 => i64::from(self.bits() as i32),
            1 => self.between(-9, 9),
            2 => to_word(self.power(31) + self.between(-1, 1)),
            _ => to_word(self.pick(&NAMED) + self.between(-1, 1)),
        }
    }

    /// Any i16, in the same mix.
    pub(crate) fn half(&mut self) -> i64 {
        match self.below(4) {
            0 => i64::from(self.bits() as i16),
            1 => self.between(-9, 9),
            2 => to_half(self.power(15) + self.between(-1, 1)),
            _ => self.pick(&[-32768, -32767, 32766, 32767, 0, -1]),
        }
    }

    fn power(&mut self, most: u64) -> i64 {
        let value = 1i64 << self.below(most + 1);
        if self.flag() { -value } else { value }
    }
}
