//! The kind choose.

use crate::analyse::field::recalc::{RECORD, inside};
use crate::free_records::{
    LAMBDA, PREDICTOR, WINDOW_X, WINDOW_Y, lambda_word, pair_word, random_flags, random_lambda,
    random_pnew, random_predictor, random_window,
};
use crate::kinds::Kind;
use crate::lines::{Fault, Numbers, Work};
use crate::random::Random;
use crate::{choose_limits, packing, score};

pub(crate) const CHOOSE: Kind = Kind {
    name: "choose",
    read: read_choose,
    random: random_choose,
    limits: choose_limits::cases,
};

pub(crate) struct ChooseCase {
    pub(crate) pel: i32,
    pub(crate) shift: u32,
    pub(crate) pnew: i32,
    pub(crate) record: Vec<i32>,
    pub(crate) luma: Vec<u32>,
    pub(crate) chroma: Vec<u32>,
    pub(crate) average: i32,
}

/// The predictor's slot, and one for each vector of an uncut window.
pub(crate) fn slots(radius: i64) -> usize {
    1 + (2 * radius + 1).pow(2) as usize
}

fn read_choose(numbers: &mut Numbers<'_>) -> Result<Work, Fault> {
    let pel = numbers.take()?;
    let shift = numbers.take_in(0, 1)? as u32;
    let pnew = numbers.take()?;
    let slots = slots(numbers.take_in(0, 3)?);
    let case = ChooseCase {
        pel,
        shift,
        pnew,
        record: numbers.many(RECORD)?,
        luma: numbers.many(slots)?,
        chroma: numbers.many(slots)?,
        average: numbers.take()?,
    };
    Ok(Box::new(move || {
        inside::choose(&case).map(i64::from).to_vec()
    }))
}

/// The greatest cost of a 16x16 block, and of its two chroma blocks before they are scaled.
pub(crate) const GREATEST_LUMA: i64 = 130_560;
pub(crate) const fn greatest_chroma(shift: i64) -> i64 {
    (2 * GREATEST_LUMA) >> (2 * shift)
}

fn random_choose(random: &mut Random) -> Vec<i64> {
    let (pel, shift) = (random.pick(&[1, 1, 2, 4]), random.between(0, 1));
    let radius = random.between(0, 3);
    let mut record = packing::random_words(random);
    let predictor = random_predictor(random);
    record[PREDICTOR] = pair_word(predictor.0, predictor.1);
    [record[WINDOW_X], record[WINDOW_Y]] = random_window(random, predictor, radius);
    let weights = if random.flag() {
        tame_weights(random)
    } else {
        wild_weights(random, shift)
    };
    record[LAMBDA] = lambda_word(weights.lambda, random_flags(random));
    let luma = table(random, radius, weights.luma);
    let chroma = table(random, radius, weights.chroma);
    let average = score::average(random);
    let head = [pel, shift, weights.pnew, radius];
    numbers(head, &record, &luma, &chroma, average)
}

/// What a cost is made of, and the greatest numbers in its tables.
struct Weights {
    lambda: i64,
    pnew: i64,
    luma: i64,
    chroma: i64,
}

/// So small that a cost often equals the least, at each of the three tests.
fn tame_weights(random: &mut Random) -> Weights {
    Weights {
        lambda: random.pick(&[0, 0, 256, 512, 768]),
        pnew: random.pick(&[0, 0, 128, 256]),
        luma: random.pick(&[1, 2, 3, 8]),
        chroma: random.pick(&[1, 1, 2, 3]),
    }
}

fn wild_weights(random: &mut Random, shift: i64) -> Weights {
    Weights {
        lambda: random_lambda(random),
        pnew: random_pnew(random),
        luma: random.pick(&[1, 8, 40, 1000, GREATEST_LUMA]),
        chroma: random.pick(&[0, 3, 40, greatest_chroma(shift)]),
    }
}

/// The predictor's own cost is often the greatest, so that others can win.
fn table(random: &mut Random, radius: i64, most: i64) -> Vec<i64> {
    let mut costs: Vec<i64> = (0..slots(radius))
        .map(|_| random.between(0, most))
        .collect();
    if random.flag() {
        costs[0] = most;
    }
    costs
}

pub(crate) fn numbers(
    head: [i64; 4],
    record: &[i64],
    luma: &[i64],
    chroma: &[i64],
    average: i64,
) -> Vec<i64> {
    [&head, record, luma, chroma, &[average]].concat()
}
