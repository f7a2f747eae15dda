//! Parts of records that no planning made, for choose and evaluate: any window that the port accepts, any lambda.

use crate::random::{Random, to_half};

pub(crate) const BAD: i64 = 1;
pub(crate) const NEGATIVE: i64 = 2;

/// The words of a record, by place.
pub(crate) const POSITION: usize = 5;
pub(crate) const CHROMA_POSITION: usize = 6;
pub(crate) const PREDICTOR: usize = 7;
pub(crate) const WINDOW_X: usize = 8;
pub(crate) const WINDOW_Y: usize = 9;
pub(crate) const SAD: usize = 10;
pub(crate) const LAMBDA: usize = 11;

/// Two numbers that fit i16, in one word.
pub(crate) fn pair_word(low: i64, high: i64) -> i64 {
    (high << 16) + (low & 0xFFFF)
}

pub(crate) fn lambda_word(lambda: i64, flags: i64) -> i64 {
    4 * lambda + flags
}

pub(crate) fn random_flags(random: &mut Random) -> i64 {
    random.pick(&[BAD, BAD, BAD, BAD + NEGATIVE, BAD + NEGATIVE, 0, NEGATIVE])
}

/// A lambda word holds 30 bits of it.
pub(crate) fn random_lambda(random: &mut Random) -> i64 {
    match random.below(6) {
        0 => 0,
        1 => 256 * random.between(-3, 6),
        2 => random.between(0, 3000),
        3 => 25_600,
        4 => random.pick(&[-(1 << 29), -(1 << 28), (1 << 28) - 1, (1 << 29) - 1]),
        _ => random.word().clamp(-(1 << 29), (1 << 29) - 1),
    }
}

pub(crate) fn random_pnew(random: &mut Random) -> i64 {
    match random.below(4) {
        0 => 0,
        1 => random.between(0, 256),
        2 => random.pick(&[-256, 256, 512, 1 << 28, -(1 << 28)]),
        _ => random.word(),
    }
}

pub(crate) fn random_predictor(random: &mut Random) -> (i64, i64) {
    if random.one_in(4) {
        (random.half(), random.half())
    } else {
        (random.between(-9, 9), random.between(-9, 9))
    }
}

/// The window's two words: each side at most 2 x radius + 1, or one of them empty and the other of any length.
pub(crate) fn random_window(random: &mut Random, predictor: (i64, i64), radius: i64) -> [i64; 2] {
    let mut x = side(random, predictor.0, radius);
    let mut y = side(random, predictor.1, radius);
    if random.one_in(12) {
        x = empty(random);
    }
    if random.one_in(12) {
        y = empty(random);
    }
    if x.0 > x.1 && random.flag() {
        y = long(random);
    } else if y.0 > y.1 && random.flag() {
        x = long(random);
    }
    [pair_word(x.0, x.1), pair_word(y.0, y.1)]
}

fn side(random: &mut Random, centre: i64, radius: i64) -> (i64, i64) {
    let (low, high) = match random.below(5) {
        0..=2 => (centre - radius, centre + radius),
        3 => (
            centre - random.between(0, radius),
            centre + random.between(0, radius),
        ),
        _ => {
            let low = random.half();
            (low, low + random.between(0, 2 * radius))
        }
    };
    (to_half(low), to_half(high))
}

fn empty(random: &mut Random) -> (i64, i64) {
    let (a, b) = (random.half(), random.half());
    let ordered = (a.max(b), a.min(b).max(-32_767) - 1);
    random.pick(&[(0, -1), (1, 0), (32, -199), (32_767, -32_768), ordered])
}

fn long(random: &mut Random) -> (i64, i64) {
    let (a, b) = (random.half(), random.half());
    random.pick(&[(-32_768, 32_767), (0, 65), (a.min(b), a.max(b))])
}
