//! The kinds block, absent and sample: what the data of a plane have at a place, inside them, across each of their edges
//! and outside. A block's samples that are not there count 0; absent says how many they are, and sample whether one is.

use crate::absent;
use crate::analyse::metric::Shape;
use crate::kinds::Kind;
use crate::lines::{Fault, Numbers, Work};
use crate::planes::Plane;
use crate::random::{GREATEST, LEAST, Random};

pub(crate) const BLOCK: Kind = Kind {
    name: "block",
    read: read_block,
    random: random_block,
    limits: block_limits,
};

pub(crate) const ABSENT: Kind = Kind {
    name: "absent",
    read: read_absent,
    random: random_block,
    limits: absent_limits,
};

pub(crate) const SAMPLE: Kind = Kind {
    name: "sample",
    read: read_sample,
    random: random_sample,
    limits: sample_limits,
};

/// Luma's sizes, and chroma's at each shift.
#[rustfmt::skip]
const SIZES: [(i64, i64); 10] = [
    (16, 16), (16, 8), (8, 16), (8, 8), (8, 4), (4, 8), (4, 4), (4, 2), (2, 4), (2, 2),
];

/// So many bytes of data a line may have.
const MOST: i64 = 512;

/// A plane, its pel, and a place in it.
type Place = (Plane, i32, (i32, i32));

fn read_place(numbers: &mut Numbers<'_>) -> Result<Place, Fault> {
    Ok((Plane::read_place(numbers)?, numbers.take()?, numbers.two()?))
}

fn read_size(numbers: &mut Numbers<'_>) -> Result<(usize, usize), Fault> {
    let size = numbers.two()?;
    if !SIZES.contains(&size) {
        return Err(format!("{}x{} is not a size of a block", size.0, size.1));
    }
    Ok((size.0 as usize, size.1 as usize))
}

fn read_data(numbers: &mut Numbers<'_>) -> Result<Vec<u8>, Fault> {
    let length = numbers.take_in(0, MOST)? as usize;
    numbers.many(length)
}

fn read_block(numbers: &mut Numbers<'_>) -> Result<Work, Fault> {
    let (plane, pel, (x, y)) = read_place(numbers)?;
    let (width, height) = read_size(numbers)?;
    let data = read_data(numbers)?;
    let shape = Shape::new(width, height);
    Ok(Box::new(move || {
        let view = plane.view(&data, pel);
        let mut out = vec![0; shape.area()];
        view.copy_block(view.subpel(x, y), shape, &mut out);
        out.into_iter().map(i64::from).collect()
    }))
}

fn read_absent(numbers: &mut Numbers<'_>) -> Result<Work, Fault> {
    let (plane, pel, (x, y)) = read_place(numbers)?;
    let size = read_size(numbers)?;
    let data = read_data(numbers)?;
    Ok(Box::new(move || {
        let view = plane.view(&data, pel);
        vec![absent::absent(&view, view.subpel(x, y), size) as i64]
    }))
}

/// 1 and the byte, or 0 alone: so a byte of 0 is told from none.
fn read_sample(numbers: &mut Numbers<'_>) -> Result<Work, Fault> {
    let (plane, pel, (x, y)) = read_place(numbers)?;
    let data = read_data(numbers)?;
    Ok(Box::new(move || {
        let view = plane.view(&data, pel);
        let byte = absent::sample(&view, view.subpel(x, y));
        byte.map_or(vec![0], |byte| vec![1, byte.into()])
    }))
}

/// No byte is 0, so that a sample that was read is told from one that is not there.
fn bytes(random: &mut Random, length: i64) -> Vec<i64> {
    (0..length).map(|_| random.between(1, 255)).collect()
}

/// A small plane and a place around it: base, pitch, width, height, pel, x and y.
fn random_place(random: &mut Random, pel: i64) -> [i64; 7] {
    let (width, height) = (random.between(2, 12), random.between(2, 12));
    let pitch = random.between(width, width + 9);
    let base = match random.below(8) {
        0 => (1 << 30) - random.between(0, 99),
        _ => random.pick_or(&[0, 1], 0, 99),
    };
    let x = random.between(-pel * 9, pel * width);
    let y = random.between(-pel * 5, pel * height);
    [base, pitch, width, height, pel, x, y]
}

fn random_length(random: &mut Random) -> i64 {
    random.pick_or(&[1, MOST, MOST], 0, MOST)
}

fn random_block(random: &mut Random) -> Vec<i64> {
    let (pel, size) = (random.pick(&[1, 2, 4]), random.pick(&SIZES));
    let place = random_place(random, pel);
    let length = random_length(random);
    let data = bytes(random, length);
    [&place[..], &[size.0, size.1, length], &data].concat()
}

fn random_sample(random: &mut Random) -> Vec<i64> {
    let pel = random.pick(&[1, 2, 4]);
    let place = random_place(random, pel);
    let length = random_length(random);
    let byte = |random: &mut Random| random.pick_or(&[0, 0, 255], 0, 255);
    let data: Vec<i64> = (0..length).map(|_| byte(random)).collect();
    [&place[..], &[length], &data].concat()
}

/// Each size at pel 1, from places before the data, at each end of them and past them, with a base of 0, one over 0 and
/// one near the greatest length.
fn block_limits() -> Vec<Vec<i64>> {
    let mut cases = Vec::new();
    for (w, h) in SIZES {
        let (pitch, length) = (w + 1, (h - 1) * (w + 1) + w);
        let rows = [-h, -1, 0, 1, h - 1, h];
        let columns = [-w, 1 - w, -1, 0, 1, w - 1, w];
        for base in [0, 1, 1 << 30] {
            for (y, x) in rows.iter().flat_map(|y| columns.map(|x| (*y, x))) {
                cases.push(with_bytes(&[base, pitch, w, h, 1, x, y, w, h], length));
            }
        }
    }
    cases
}

/// The cases of a block; data that end at each column of a block's last row; in each subplane data that end before, in
/// and behind the block, also one that begins a column earlier; and places as far away as numbers reach.
fn absent_limits() -> Vec<Vec<i64>> {
    let mut cases = block_limits();
    for (w, h) in SIZES {
        let pitch = w + 1;
        let ends = (0..=w).map(|cut| (h - 1) * pitch + cut);
        cases.extend(ends.map(|length| with_bytes(&[0, pitch, w, h, 1, 0, 0, w, h], length)));
    }
    let (pitch, w, h) = (5, 4, 4);
    for (pel, x, y) in subplanes() {
        let first = (x + pel * y) * pitch * h;
        for past in [0, 1, pitch + 2, 3 * pitch + 3, 3 * pitch + 4] {
            for x in [x, x - pel] {
                cases.push(with_bytes(&[0, pitch, w, h, pel, x, y, w, h], first + past));
            }
        }
    }
    let far = |place: [i64; 7]| with_bytes(&[&place[..], &[8, 8]].concat(), 9);
    cases.extend(far_places().into_iter().map(far));
    cases
}

/// In each subplane the offsets before the data, at each end of them and behind, where every byte is 0 and where none is;
/// and places as far away as numbers reach.
fn sample_limits() -> Vec<Vec<i64>> {
    let (pitch, w, h) = (3, 2, 2);
    let mut cases = Vec::new();
    for (pel, x, y) in subplanes() {
        for base in [0, 5] {
            let first = base + (x + pel * y) * pitch * h;
            for length in [0, 1, base + pitch + w, base + pel * pel * pitch * h] {
                for offset in [-1, 0, length - 1, length] {
                    let x = x + pel * (offset - first);
                    let place = [base, pitch, w, h, pel, x, y];
                    let black = vec![0; length as usize];
                    cases.push(with_bytes(&place, length));
                    cases.push([&place[..], &[length], &black].concat());
                }
            }
        }
    }
    cases.extend(far_places().into_iter().map(|place| with_bytes(&place, 9)));
    cases
}

/// The inputs, and behind them data of that length, no byte of which is 0.
fn with_bytes(inputs: &[i64], length: i64) -> Vec<i64> {
    let data: Vec<i64> = (0..length).map(|at| at % 255 + 1).collect();
    [inputs, &[length], &data].concat()
}

/// Each pel with its subplanes, by what pel leaves of x and y.
fn subplanes() -> Vec<(i64, i64, i64)> {
    let of = |pel: i64| (0..pel * pel).map(move |at| (pel, at % pel, at / pel));
    [1, 2, 4].into_iter().flat_map(of).collect()
}

fn far_places() -> Vec<[i64; 7]> {
    let ends = [LEAST, 0, GREATEST];
    let of = |pel: i64| ends.map(|x| ends.map(|y| [1, 3, 2, 2, pel, x, y])).concat();
    [1, 2, 4].into_iter().flat_map(of).collect()
}
