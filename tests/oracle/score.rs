//! The kinds score and root.

use crate::analyse::field::recalc::inside;
use crate::kinds::Kind;
use crate::lines::{Fault, Numbers, Work};
use crate::random::{GREATEST, LEAST, Random, to_word};

pub(crate) const SCORE: Kind = Kind {
    name: "score",
    read: read_score,
    random: random_score,
    limits: score_limits,
};

pub(crate) const ROOT: Kind = Kind {
    name: "root",
    read: read_root,
    random: random_root,
    limits: root_limits,
};

/// The greatest width squared + height squared of a frame.
const GREATEST_SQUARE_SUM: i64 = 1 << 29;

fn read_score(numbers: &mut Numbers<'_>) -> Result<Work, Fault> {
    let (x, y): (i16, i16) = numbers.two()?;
    let (sad, diagonal, average) = (numbers.take()?, numbers.take()?, numbers.take()?);
    Ok(Box::new(move || {
        let score = inside::score(x.into(), y.into(), sad, diagonal, average);
        vec![i64::from(score)]
    }))
}

fn read_root(numbers: &mut Numbers<'_>) -> Result<Work, Fault> {
    let n = numbers.take_in(0, GREATEST_SQUARE_SUM)? as i32;
    // As the diagonal is taken in plan_recalculate, where it cannot be had for one number alone.
    Ok(Box::new(move || {
        vec![i64::from(f64::from(n).sqrt() as i32)]
    }))
}

/// A diagonal from 1 up: that of a frame, a small one, or any.
pub(crate) fn diagonal(random: &mut Random) -> i64 {
    match random.below(4) {
        0 => random.between(12, 92_680),
        1 => random.between(1, 200),
        2 => random.between(4000, 5000),
        _ => random.word().abs().clamp(1, GREATEST),
    }
}

/// Components whose sum is that many steps, as far as they reach.
fn components(random: &mut Random, steps: i64) -> (i64, i64) {
    let steps = steps.clamp(0, 65_534);
    let x = random.between((steps - 32_767).max(0), steps.min(32_767));
    let sign = |random: &mut Random| random.pick(&[-1, 1]);
    (sign(random) * x, sign(random) * (steps - x))
}

/// A vector near the places where the score's rule changes, or any.
pub(crate) fn scored_vector(random: &mut Random, diagonal: i64) -> (i64, i64) {
    if random.flag() {
        return (random.half(), random.half());
    }
    let percent = random.pick(&[1, 15, 16, 17, 50, 51, 52]);
    let steps = (percent * diagonal + 99) / 100 + random.between(-1, 0);
    components(random, steps)
}

pub(crate) fn average(random: &mut Random) -> i64 {
    if random.one_in(4) {
        random.word()
    } else {
        random.between(0, 255)
    }
}

pub(crate) fn sad(random: &mut Random) -> i64 {
    if random.flag() {
        random.between(0, 30_000)
    } else {
        random.word()
    }
}

fn random_score(random: &mut Random) -> Vec<i64> {
    let diagonal = diagonal(random);
    let (x, y) = scored_vector(random, diagonal);
    vec![x, y, sad(random), diagonal, average(random)]
}

/// Also those next to where 20 times as much wraps.
#[rustfmt::skip]
const SADS: [i64; 17] = [
    0, 1, -1, 34, 35, 36, -35, 100, 65_280, 391_680, (1 << 24) - 1, 1 << 24, 107_374_182, 107_374_183, 1 << 30,
    LEAST, GREATEST,
];

fn score_limits() -> Vec<Vec<i64>> {
    let averages = [0, 1, 127, 128, 255, 256, -1, -128, LEAST, GREATEST];
    let mut cases = Vec::new();
    for diagonal in [1, 2, 12, 100, 4404, 92_680, GREATEST] {
        for (x, y) in edge_vectors(diagonal) {
            cases.extend(SADS.map(|sad| vec![x, y, sad, diagonal, 0]));
        }
    }
    for average in averages {
        cases.extend([0, -1, 100].map(|sad| vec![705, 0, sad, 4404, average]));
    }
    cases
}

fn edge_vectors(diagonal: i64) -> Vec<(i64, i64)> {
    let far = [
        (-32_768, -32_768),
        (32_767, 32_767),
        (-32_768, 0),
        (0, 32_767),
    ];
    let mut vectors = vec![(0, 0), (661, 0), (705, 0), (1000, 0), (2300, 0)];
    vectors.extend(far);
    for percent in [1, 15, 16, 50, 51] {
        let least = (percent * diagonal + 99) / 100;
        for steps in [least - 1, least] {
            let (x, y) = (steps.min(32_767), (steps - 32_767).max(0));
            if y <= 32_767 {
                vectors.extend([(x, y), (-x, -y), (y, -x)]);
            }
        }
    }
    vectors
}

fn random_root(random: &mut Random) -> Vec<i64> {
    let n = match random.below(3) {
        0 => random.between(0, GREATEST_SQUARE_SUM),
        1 => random.between(0, 23_170).pow(2) + random.between(-1, 1),
        _ => to_word(random.word().abs()),
    };
    vec![n.clamp(0, GREATEST_SQUARE_SUM)]
}

fn root_limits() -> Vec<Vec<i64>> {
    let near = |k: i64| [k * k - 1, k * k, k * k + 1];
    let roots = (0..).take_while(|k| k * k <= GREATEST_SQUARE_SUM);
    let mut cases: Vec<i64> = roots.flat_map(near).filter(|n| *n >= 0).collect();
    cases.push(GREATEST_SQUARE_SUM);
    cases.into_iter().map(|n| vec![n]).collect()
}
