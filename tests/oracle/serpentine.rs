//! The kinds `serpentine_position`, `serpentine_block` and `serpentine_order`.

use crate::analyse::field::recalc::inside;
use crate::kinds::Kind;
use crate::lines::{Fault, Numbers, Work};
use crate::random::Random;

pub(crate) const POSITION: Kind = Kind {
    name: "serpentine_position",
    read: read_position,
    random: random_position,
    limits: position_limits,
};

pub(crate) const BLOCK: Kind = Kind {
    name: "serpentine_block",
    read: read_block,
    random: random_block,
    limits: block_limits,
};

pub(crate) const ORDER: Kind = Kind {
    name: "serpentine_order",
    read: read_order,
    random: random_order,
    limits: || small_grids().map(|(nx, ny)| vec![nx, ny]).collect(),
};

const LONGEST: i64 = 2048;
/// Keeps the lines of `serpentine_order` to some tens of kilobytes.
const MOST_BLOCKS: i64 = 4096;

fn read_position(numbers: &mut Numbers<'_>) -> Result<Work, Fault> {
    let ((nx, ny), (bx, by)) = (numbers.two()?, numbers.two()?);
    Ok(Box::new(move || {
        vec![i64::from(inside::serpentine_position(nx, ny, bx, by))]
    }))
}

fn read_block(numbers: &mut Numbers<'_>) -> Result<Work, Fault> {
    let ((nx, ny), position) = (numbers.two()?, numbers.take()?);
    Ok(Box::new(move || {
        let (bx, by) = inside::serpentine_block(nx, ny, position);
        vec![i64::from(bx), i64::from(by)]
    }))
}

fn read_order(numbers: &mut Numbers<'_>) -> Result<Work, Fault> {
    let nx = numbers.take_in(2, LONGEST)? as i32;
    let ny = numbers.take_in(2, LONGEST)? as i32;
    Ok(Box::new(move || {
        let order = inside::serpentine_order(nx, ny);
        order
            .iter()
            .flat_map(|&(x, y)| [x.into(), y.into()])
            .collect()
    }))
}

fn side(random: &mut Random) -> i64 {
    match random.below(4) {
        0 => random.between(2, 5),
        1 => random.between(2, 40),
        2 => random.between(2, LONGEST),
        _ => LONGEST - random.between(0, 2),
    }
}

/// A place on a side of that length: the ends and their neighbours often.
fn place(random: &mut Random, side: i64) -> i64 {
    match random.below(4) {
        0 => random.between(0, 1),
        1 => side - random.between(1, 2),
        _ => random.between(0, side - 1),
    }
}

fn random_position(random: &mut Random) -> Vec<i64> {
    let (nx, ny) = (side(random), side(random));
    vec![nx, ny, place(random, nx), place(random, ny)]
}

fn random_block(random: &mut Random) -> Vec<i64> {
    let (nx, ny) = (side(random), side(random));
    let interior = (nx - 2) * (ny - 2);
    let position = match random.below(4) {
        0 => interior + random.between(-2, 2),
        1 => interior + 2 * nx + random.between(-2, 2),
        2 => random.pick(&[0, 1, nx * ny - 2, nx * ny - 1]),
        _ => random.between(0, nx * ny - 1),
    };
    vec![nx, ny, position.clamp(0, nx * ny - 1)]
}

fn random_order(random: &mut Random) -> Vec<i64> {
    if !random.one_in(8) {
        return vec![random.between(2, 14), random.between(2, 14)];
    }
    let long = side(random);
    let short = side(random).min(MOST_BLOCKS / long).max(2);
    if random.flag() {
        vec![long, short]
    } else {
        vec![short, long]
    }
}

fn small_grids() -> impl Iterator<Item = (i64, i64)> {
    (2..=13).flat_map(|nx| (2..=13).map(move |ny| (nx, ny)))
}

fn position_limits() -> Vec<Vec<i64>> {
    let places = |(nx, ny)| (0..ny).flat_map(move |by| (0..nx).map(move |bx| vec![nx, ny, bx, by]));
    small_grids().flat_map(places).collect()
}

fn block_limits() -> Vec<Vec<i64>> {
    let places = |(nx, ny)| (0..nx * ny).map(move |position| vec![nx, ny, position]);
    small_grids().flat_map(places).collect()
}
