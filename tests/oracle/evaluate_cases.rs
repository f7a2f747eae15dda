//! Random cases of evaluation, with planned and with free records.

use crate::analyse::field::recalc;
use crate::evaluate::{EvaluateCase, Planes};
use crate::free_records::{
    CHROMA_POSITION, LAMBDA, POSITION, PREDICTOR, SAD, WINDOW_X, WINDOW_Y, lambda_word, pair_word,
    random_flags, random_lambda, random_pnew, random_predictor, random_window,
};
use crate::plan::PlanCase;
use crate::plan_cases::{self, small_plane};
use crate::planes::{Fill, Plane};
use crate::random::{Random, to_half};

pub(crate) const NONE: i64 = recalc::NONE as i64;
pub(crate) type Words = [i64; recalc::RECORD];

pub(crate) fn any(random: &mut Random) -> EvaluateCase {
    let mut plan = plan_cases::small(random);
    let planned = random.flag();
    if !planned && random.one_in(3) {
        tiny_frame(random, &mut plan);
    }
    let mut case = around(random, &plan);
    case.records = if planned {
        plan.plan().map_or(Vec::new(), |planned| planned.records)
    } else {
        free_records(random, &case)
    };
    case
}

/// Evaluation knows no grid: its frame may be smaller than a block.
fn tiny_frame(random: &mut Random, plan: &mut PlanCase) {
    let size = (random.between(2, 20), random.between(2, 20));
    let chroma = (size.0 >> plan.shift.0, size.1 >> plan.shift.1);
    plan.planes = [size, chroma, chroma].map(|size| small_plane(random, size));
}

/// The plan's source, a reference beside it, and no records yet.
pub(crate) fn around(random: &mut Random, plan: &PlanCase) -> EvaluateCase {
    let source = Planes {
        planes: plan.planes,
        fills: [(); 3].map(|()| fill(random)),
    };
    let mut reference = source.clone();
    for at in 0..3 {
        reference.planes[at] = reference_plane(random, &plan.planes[at], plan.pel);
        // The same bytes at another base look like a block that has moved.
        if random.one_in(3) {
            reference.fills[at] = fill(random);
        }
    }
    EvaluateCase::of(plan, random_pnew(random) as i32, source, reference)
}

/// Few levels often: then costs are equal, or 0.
pub(crate) fn fill(random: &mut Random) -> Fill {
    Fill {
        seed: random.below(1000) as u32,
        levels: random.pick(&[1, 2, 2, 3, 4, 16, 256, 256, 256]),
    }
}

fn reference_plane(random: &mut Random, source: &Plane, pel: i32) -> Plane {
    let mut plane = small_plane(random, (source.width.into(), source.height.into()));
    if random.flag() {
        plane.pitch = source.pitch;
    }
    let (least, full) = (plane.least_length() as i64, plane.full_length(pel) as i64);
    plane.length = random.pick_or(&[full, full + 9, least], least, full) as usize;
    plane
}

fn free_records(random: &mut Random, case: &EvaluateCase) -> Vec<i32> {
    let count = random.between(0, 8);
    let records: Vec<Words> = (0..count).map(|_| free_record(random, case)).collect();
    to_words(&records)
}

fn free_record(random: &mut Random, case: &EvaluateCase) -> Words {
    let [y, u, v] = &case.source.planes;
    let mut record = [0; recalc::RECORD];
    for (word, plane) in record.iter_mut().zip([y, y, u, v, y]) {
        *word = offset(random, plane);
    }
    record[POSITION] = position(random, y, case.pel.into());
    record[CHROMA_POSITION] = position(random, u, case.pel.into());
    let predictor = random_predictor(random);
    record[PREDICTOR] = pair_word(predictor.0, predictor.1);
    [record[WINDOW_X], record[WINDOW_Y]] =
        random_window(random, predictor, case.search_param.abs());
    record[SAD] = random.word();
    record[LAMBDA] = lambda_word(random_lambda(random), random_flags(random));
    record
}

/// An offset inside the data, at their ends, absent, or any.
fn offset(random: &mut Random, plane: &Plane) -> i64 {
    let length = plane.length as i64;
    match random.below(8) {
        0 | 1 => NONE,
        2..5 => random.between(0, length),
        5 => length + random.between(-200, 20),
        6 => random.between(-200, 0),
        _ => random.word(),
    }
}

fn position(random: &mut Random, plane: &Plane, pel: i64) -> i64 {
    let along = |random: &mut Random, side: i32| match random.below(4) {
        0 => random.half(),
        1 => pel * random.between(0, side.into()) + random.between(0, pel),
        _ => pel * random.between(0, side.into()),
    };
    pair_word(
        to_half(along(random, plane.width)),
        to_half(along(random, plane.height)),
    )
}

pub(crate) fn to_words(records: &[Words]) -> Vec<i32> {
    records
        .as_flattened()
        .iter()
        .map(|&word| word as i32)
        .collect()
}
