//! The kind cost.

use crate::analyse::field::recalc::inside;
use crate::kinds::Kind;
use crate::lines::{Fault, Numbers, Work};
use crate::random::Random;

pub(crate) const COST: Kind = Kind {
    name: "cost",
    read: read_cost,
    random: random_cost,
    limits: cost_limits,
};

const SIZES: [(i64, i64); 5] = [(16, 16), (16, 8), (8, 8), (8, 4), (4, 4)];

fn read_cost(numbers: &mut Numbers<'_>) -> Result<Work, Fault> {
    let satd = numbers.flag()?;
    let size = numbers.two()?;
    if !SIZES.contains(&size) {
        return Err(format!("{}x{} is not a size of a cost", size.0, size.1));
    }
    let (width, height) = (size.0 as usize, size.1 as usize);
    let a: Vec<u8> = numbers.many(width * height)?;
    let b: Vec<u8> = numbers.many(width * height)?;
    Ok(Box::new(move || {
        let cost = inside::block_cost(satd, (width, height), width, &a, &b);
        vec![i64::from(cost)]
    }))
}

fn cost_case(satd: i64, size: (i64, i64), a: &[i64], b: &[i64]) -> Vec<i64> {
    [&[satd, size.0, size.1], a, b].concat()
}

fn random_cost(random: &mut Random) -> Vec<i64> {
    let (satd, size) = (random.between(0, 1), random.pick(&SIZES));
    let area = size.0 * size.1;
    let palette: &[i64] = random.pick(&[&[0, 255][..], &[0, 1], &[0, 1, 2, 128, 254, 255]]);
    let free = random.flag();
    let sample = |random: &mut Random| {
        if free {
            random.between(0, 255)
        } else {
            random.pick(palette)
        }
    };
    let a: Vec<i64> = (0..area).map(|_| sample(random)).collect();
    let b: Vec<i64> = match random.below(3) {
        0 => (0..area).map(|_| sample(random)).collect(),
        1 => few_changes(random, &a),
        _ => a
            .iter()
            .map(|v| (v + random.between(-2, 2)).clamp(0, 255))
            .collect(),
    };
    cost_case(satd, size, &a, &b)
}

fn few_changes(random: &mut Random, block: &[i64]) -> Vec<i64> {
    let mut changed = block.to_vec();
    for _ in 0..random.below(4) {
        changed[random.below(block.len() as u64) as usize] = random.between(0, 255);
    }
    changed
}

/// Patterns of 0 and 1 by row and column. The last two have sixteen Hadamard values of one size in every 4x4 tile, so
/// that with 255 against 0 a tile's SATD is the greatest there is.
const PATTERNS: [fn(i64, i64) -> bool; 8] = [
    |_, _| false,
    |_, _| true,
    |y, x| (y + x) % 2 == 1,
    |_, x| x % 2 == 1,
    |y, _| y % 2 == 1,
    |y, x| (y / 2 + x / 2) % 2 == 1,
    |y, x| (y % 4 == 3) != (x % 4 == 3),
    |y, x| ((y % 4) & (x % 4)).count_ones() % 2 == 1,
];

fn cost_limits() -> Vec<Vec<i64>> {
    let mut cases = Vec::new();
    for size in SIZES {
        for satd in [0, 1] {
            cases.extend(pattern_costs(satd, size));
            cases.extend(single_costs(satd, size));
        }
    }
    cases
}

fn drawn((width, height): (i64, i64), one: i64, pattern: fn(i64, i64) -> bool) -> Vec<i64> {
    let places = (0..height).flat_map(|y| (0..width).map(move |x| (y, x)));
    places
        .map(|(y, x)| if pattern(y, x) { one } else { 0 })
        .collect()
}

/// Each pattern against itself, nothing and its reverse, either way round, with steps of 1 and of 255.
fn pattern_costs(satd: i64, size: (i64, i64)) -> Vec<Vec<i64>> {
    let mut cases = Vec::new();
    for pattern in PATTERNS {
        for one in [1, 255] {
            let a = drawn(size, one, pattern);
            let reverse: Vec<i64> = a.iter().map(|v| one - v).collect();
            for b in [a.clone(), vec![0; a.len()], reverse] {
                cases.push(cost_case(satd, size, &a, &b));
                cases.push(cost_case(satd, size, &b, &a));
            }
        }
    }
    cases
}

/// One difference, at every place.
fn single_costs(satd: i64, size: (i64, i64)) -> Vec<Vec<i64>> {
    let level = vec![128; (size.0 * size.1) as usize];
    let mut cases = Vec::new();
    for at in 0..level.len() {
        let mut b = level.clone();
        b[at] += [-1, 1][at % 2];
        cases.push(cost_case(satd, size, &level, &b));
    }
    cases
}
