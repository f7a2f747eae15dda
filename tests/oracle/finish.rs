//! The kind finish.

use crate::analyse::field::recalc::inside;
use crate::evaluate::Best;
use crate::kinds::Kind;
use crate::lines::{Fault, Numbers, Work};
use crate::random::{GREATEST, LEAST, Random};
use crate::score;

pub(crate) const FINISH: Kind = Kind {
    name: "finish",
    read: read_finish,
    random: random_finish,
    limits: finish_limits,
};

pub(crate) struct FinishCase {
    pub(crate) grid: (i32, i32),
    pub(crate) diagonal: i32,
    pub(crate) output: bool,
    pub(crate) indices: Vec<u32>,
    pub(crate) bests: Vec<Best>,
}

fn read_finish(numbers: &mut Numbers<'_>) -> Result<Work, Fault> {
    let grid = (numbers.take_in(1, 2048)?, numbers.take_in(1, 2048)?);
    let (diagonal, output, count) = (numbers.take()?, numbers.flag()?, numbers.take()?);
    let indices = numbers.many(count)?;
    let mut best = || {
        Ok([
            numbers.take()?,
            numbers.take()?,
            numbers.take()?,
            numbers.take()?,
            numbers.take()?,
        ])
    };
    let bests = (0..count).map(|_| best()).collect::<Result<_, Fault>>()?;
    let case = FinishCase {
        grid: (grid.0 as i32, grid.1 as i32),
        diagonal,
        output,
        indices,
        bests,
    };
    Ok(Box::new(move || answer(&case)))
}

fn answer(case: &FinishCase) -> Vec<i64> {
    let (vectors, output) = inside::finish(case);
    in_one_row(&vectors, &output)
}

/// The words are signed here, as the replays of the port print them.
pub(crate) fn in_one_row(vectors: &[(i16, i16, i32)], output: &[u32]) -> Vec<i64> {
    let vectors = vectors
        .iter()
        .flat_map(|&(x, y, sad)| [x.into(), y.into(), sad.into()]);
    vectors
        .chain(output.iter().map(|&word| i64::from(word as i32)))
        .collect()
}

fn numbers(
    grid: (i64, i64),
    diagonal: i64,
    output: bool,
    indices: &[i64],
    bests: &[[i64; 5]],
) -> Vec<i64> {
    let head = [
        grid.0,
        grid.1,
        diagonal,
        output.into(),
        indices.len() as i64,
    ];
    [&head, indices, bests.as_flattened()].concat()
}

fn random_finish(random: &mut Random) -> Vec<i64> {
    let grid = (random.between(2, 5), random.between(2, 5));
    let blocks = grid.0 * grid.1;
    let count = random.pick_or(&[0, 1, blocks], 0, 2 * blocks);
    let diagonal = score::diagonal(random);
    let output = !random.one_in(4);
    // Few different indices repeat often, and the later best has to win.
    let reach = random.pick(&[blocks, blocks, 2]);
    let indices: Vec<i64> = (0..count).map(|_| random.between(0, reach - 1)).collect();
    let best = |random: &mut Random| {
        let (x, y) = score::scored_vector(random, diagonal);
        let (sad, average) = (score::sad(random), score::average(random));
        [x, y, sad, average, outside(random)]
    };
    let bests: Vec<[i64; 5]> = (0..count).map(|_| best(random)).collect();
    numbers(grid, diagonal, output, &indices, &bests)
}

/// A best's fifth number, which finishing must not look at: one that evaluating gives, or any.
fn outside(random: &mut Random) -> i64 {
    match random.below(3) {
        0 => random.pick(&[-1, 0]),
        1 => random.between(1, 768),
        _ => random.word(),
    }
}

fn finish_limits() -> Vec<Vec<i64>> {
    let one = |best: [i64; 5], output| numbers((2, 2), 4404, output, &[3], &[best]);
    let ends = [-32_768, -32_767, -1, 0, 1, 32_766, 32_767];
    let words = [LEAST, -1, 0, 1, 127, 128, 255, 256, GREATEST];
    let mut cases = vec![
        numbers((2, 2), 1, true, &[], &[]),
        numbers((2, 2), 1, false, &[], &[]),
    ];
    for x in ends {
        cases.extend(ends.map(|y| one([x, y, 100, 7, 0], true)));
        cases.extend(ends.map(|y| one([x, y, 100, 7, 0], false)));
    }
    for word in words {
        cases.push(one([705, 0, word, 7, 0], true));
        cases.push(one([705, 0, 100, word, 0], true));
        cases.push(one([705, 0, 100, 7, word], true));
        cases.push(one([705, 0, 100, 7, word], false));
    }
    for index in 0..6 {
        let bests = [[1, -1, 5, 9, 3], [2, 3, 6, 8, -1]];
        cases.push(numbers((3, 2), 12, true, &[index], &bests[..1]));
        cases.push(numbers((3, 2), 12, true, &[index; 2], &bests));
    }
    cases
}
