//! The cases of outside.rs, each with its name: a small one that the port accepts, with one change.

use crate::analyse::field::recalc::NONE;
use crate::evaluate::{EvaluateCase, Planes};
use crate::finish::FinishCase;
use crate::free_records::{BAD, pair_word};
use crate::levels::LevelCase;
use crate::outside::{Case, Own};
use crate::plan::PlanCase;
use crate::planes::{Fill, Plane};

type Named = (&'static str, Case);

pub(crate) fn all() -> Vec<Named> {
    [small(), levels(), finishes(), plans(), evaluations()]
        .into_iter()
        .flatten()
        .collect()
}

#[rustfmt::skip]
fn small() -> Vec<Named> {
    let flags_4 = [NONE, NONE, NONE, NONE, NONE, 0, 0, 0, 0, 3, -4, 0, -1, 0, -1, 10, 0, 4];
    vec![
        ("record-flags-4", Case::Record(flags_4)),
        ("position-side-1", Case::Position([1, 2, 0, 0])),
        ("position-side-2049", Case::Position([2049, 2, 0, 0])),
        ("position-place-outside", Case::Position([2, 2, 2, 0])),
        ("block-position-4", Case::Block([2, 2, 4])),
        ("order-side-1", Case::Order(1, 2)),
        ("order-side-2049", Case::Order(2049, 2)),
        ("score-diagonal-0", Case::Score([1, 0, 100, 0, 0])),
        ("score-diagonal-below-0", Case::Score([1, 0, 100, -5, 0])),
        ("score-x-32768", Case::Score([32_768, 0, 100, 4404, 0])),
        ("cost-4x8", Case::Cost(false, (4, 8), 4)),
        ("cost-32x32", Case::Cost(false, (32, 32), 32)),
        ("cost-pitch-3", Case::Cost(false, (4, 4), 3)),
    ]
}

/// Level 1 of 10x10 at pel 2, in rows of 16 that are long enough, with one change.
fn level(change: impl Fn(&mut LevelCase)) -> Case {
    let mut case = LevelCase::bare((10, 10), (1, 1), 2, 1, false);
    case.raw.pitches = [16; 6];
    case.raw.lengths = [1000; 6];
    change(&mut case);
    Case::Level(case)
}

#[rustfmt::skip]
fn levels() -> Vec<Named> {
    vec![
        ("level-minus-1", level(|case| case.level = -1)),
        ("level-16", level(|case| case.level = 16)),
        ("level-3", level(|case| case.level = 3)),
        ("level-1x10", level(|case| {
            case.size = (1, 10);
            case.level = 0;
        })),
        ("level-10x16385", level(|case| {
            case.size = (10, 16_385);
            case.level = 0;
        })),
        ("level-pel-3", level(|case| case.pel = 3)),
        ("level-shifts-0-1", level(|case| case.shift = (0, 1))),
        ("level-pitch-9", level(|case| case.raw.pitches[0] = 9)),
        ("level-pitch-65537", level(|case| case.raw.pitches[0] = 65_537)),
        ("level-no-bytes", level(|case| case.raw.lengths = [0; 6])),
        ("level-2-30-bytes", level(|case| case.raw.lengths[0] = 1 << 30)),
    ]
}

/// One best for index 3 of 2x2, output asked for, with one change.
fn finish(change: impl Fn(&mut FinishCase, &mut usize, &mut usize)) -> Case {
    let mut case = FinishCase {
        grid: (2, 2),
        diagonal: 4404,
        output: true,
        indices: vec![3],
        bests: vec![[1, 0, 5, 9, 3]],
    };
    let (mut vectors, mut words) = (4, 8);
    change(&mut case, &mut vectors, &mut words);
    Case::Finish(case, vectors, words)
}

fn finish_grid(nx: i32, ny: i32) -> Case {
    finish(|case, vectors, words| {
        case.grid = (nx, ny);
        *vectors = (nx * ny) as usize;
        *words = 2 * *vectors;
    })
}

#[rustfmt::skip]
fn finishes() -> Vec<Named> {
    vec![
        ("finish-word-wraps", finish(|case, _, _| case.bests[0][..2].copy_from_slice(&[-32_768, -1]))),
        ("finish-x-32768", finish(|case, _, _| case.bests[0][0] = 32_768)),
        ("finish-index-4", finish(|case, _, _| {
            case.indices = vec![3, 4];
            case.bests.push([2, 0, 6, 8, -1]);
        })),
        ("finish-diagonal-0", finish(|case, _, words| {
            case.diagonal = 0;
            case.output = false;
            *words = 0;
        })),
        ("finish-diagonal-0-output", finish(|case, _, _| case.diagonal = 0)),
        ("finish-diagonal-below-0", finish(|case, _, _| case.diagonal = -1)),
        ("finish-fewer-bests", finish(|case, _, _| case.bests.clear())),
        ("finish-more-bests", finish(|case, _, _| case.bests.push([2, 0, 6, 8, -1]))),
        ("finish-short-output", finish(|case, _, words| {
            case.indices = vec![0];
            *words = 2;
        })),
        ("finish-output-too-short", finish(|_, _, words| *words = 7)),
        ("finish-grid-1x4", finish_grid(1, 4)),
        ("finish-grid-2049x2", finish_grid(2049, 2)),
        ("finish-5-vectors", finish(|_, vectors, _| *vectors = 5)),
        ("finish-3-vectors", finish(|case, vectors, _| {
            case.indices = vec![0];
            *vectors = 3;
        })),
        ("finish-3-vectors-index-3", finish(|_, vectors, _| *vectors = 3)),
    ]
}

/// A plane with nothing between its rows, just held by its data.
fn tight(width: i32, height: i32, pel: i32) -> Own {
    let mut plane = Plane {
        base: 0,
        pitch: width as usize,
        width,
        height,
        length: 0,
    };
    plane.length = plane.least_length();
    Own {
        plane,
        pel,
        fill: Fill { seed: 0, levels: 1 },
    }
}

/// 2x2 blocks of 8x8 in 16x16 at pel 1, chroma as large as luma, no block bad, with one change.
fn plan(change: impl Fn(&mut PlanCase, &mut [Own; 3])) -> Case {
    let mut planes = [tight(16, 16, 1); 3];
    let mut case = PlanCase {
        exhaustive: true,
        search_param: 1,
        lambda: 0,
        bad_sad: 100,
        satd: false,
        block: (8, 8),
        grid: (2, 2),
        step: (8, 8),
        pel: 1,
        smallest: false,
        need_luma: false,
        shift: (0, 0),
        planes: planes.map(|own| own.plane),
        order: Vec::new(),
        vectors: Vec::new(),
    };
    on_grid(&mut case, 2, 2);
    change(&mut case, &mut planes);
    Case::Plan(case, planes)
}

/// A grid with its order and vectors.
fn on_grid(case: &mut PlanCase, nx: i16, ny: i16) {
    case.grid = (nx.into(), ny.into());
    case.order = (0..ny).flat_map(|y| (0..nx).map(move |x| (x, y))).collect();
    case.vectors = vec![(0, 0, 10); case.order.len()];
}

fn bad_first(case: &mut PlanCase) {
    case.vectors[0].2 = 101;
}

#[rustfmt::skip]
fn plans() -> Vec<Named> {
    vec![
        ("plan-param-least", plan(|case, _| case.search_param = i32::MIN)),
        ("plan-param-least-bad", plan(|case, _| {
            case.search_param = i32::MIN;
            bad_first(case);
        })),
        ("plan-grid-2049x2", plan(|case, planes| {
            case.step = (1, 1);
            *planes = [tight(2056, 9, 1); 3];
            on_grid(case, 2049, 2);
        })),
        ("plan-count-wraps", plan(|case, _| {
            case.grid = (65_536, 65_536);
            case.order.clear();
            case.vectors.clear();
        })),
        ("plan-step-0", plan(|case, _| case.step = (0, 8))),
        ("plan-step-9", plan(|case, planes| {
            case.step = (9, 8);
            *planes = [tight(17, 16, 1); 3];
        })),
        ("plan-15x16", plan(|_, planes| *planes = [tight(15, 16, 1); 3])),
        ("plan-16385x16", plan(|_, planes| *planes = [tight(16_385, 16, 1); 3])),
        ("plan-pel-3", plan(|case, planes| {
            case.pel = 3;
            *planes = [tight(16, 16, 3); 3];
        })),
        ("plan-pel-0", plan(|case, planes| {
            case.pel = 0;
            *planes = [tight(16, 16, 0); 3];
        })),
        ("plan-luma-pel-3", plan(|_, planes| planes[0].pel = 3)),
        ("plan-shifts-0-1", plan(|case, planes| {
            case.shift = (0, 1);
            *planes = [tight(16, 16, 1), tight(16, 8, 1), tight(16, 8, 1)];
        })),
        ("plan-u-15-wide", plan(|_, planes| planes[1] = tight(15, 16, 1))),
        ("plan-pitch-15", plan(|_, planes| planes[0].plane.pitch = 15)),
        ("plan-pitch-0", plan(|_, planes| planes[0].plane.pitch = 0)),
        ("plan-pitch-65537", plan(|_, planes| {
            planes[0].plane.pitch = 65_537;
            planes[0].plane.length = planes[0].plane.least_length();
        })),
        ("plan-5-vectors", plan(|case, _| case.vectors.push((0, 0, 10)))),
        ("plan-3-vectors", plan(|case, _| case.vectors.truncate(3))),
        ("plan-no-bytes", plan(|_, planes| planes.iter_mut().for_each(|own| own.plane.length = 0))),
        ("plan-base-2-31", plan(|case, planes| {
            planes[0].plane.base = 1 << 31;
            bad_first(case);
        })),
        ("plan-base-2-32", plan(|case, planes| {
            planes[0].plane.base = 1 << 32;
            bad_first(case);
        })),
        ("plan-entry-2-0", plan(|case, _| {
            case.order[0] = (2, 0);
            case.vectors[2].2 = 101;
        })),
        ("plan-entry-2-1", plan(|case, _| case.order[0] = (2, 1))),
        // only the block in the middle is no rim's, and its lambda does not fit
        ("plan-midway", plan(|case, planes| {
            *planes = [tight(24, 24, 1); 3];
            on_grid(case, 3, 3);
            case.smallest = true;
            case.lambda = 1 << 30;
        })),
    ]
}

/// One plain bad record for the block of 8x8 at (8,8) in 32x32 at pel 2, radius 1 around (0,0), with one change. Every
/// plane has samples of its own.
fn evaluate(change: impl Fn(&mut EvaluateCase, &mut [Own; 6])) -> Case {
    let mut planes = [1, 2, 3, 4, 5, 6].map(|seed| Own {
        fill: Fill { seed, levels: 256 },
        ..tight(32, 32, 2)
    });
    let of = |own: &[Own]| Planes {
        planes: [own[0].plane, own[1].plane, own[2].plane],
        fills: [own[0].fill, own[1].fill, own[2].fill],
    };
    let (source, reference) = (of(&planes[..3]), of(&planes[3..]));
    let mut case = EvaluateCase {
        satd: false,
        pel: 2,
        shift: (0, 0),
        block: (8, 8),
        search_param: 1,
        pnew: 0,
        source,
        reference,
        records: searched((-1, 1), (-1, 1)),
    };
    change(&mut case, &mut planes);
    Case::Evaluate(case, planes)
}

fn searched(x: (i64, i64), y: (i64, i64)) -> Vec<i32> {
    let (origin, corner) = (8 * 32 + 8, pair_word(16, 16) as i32);
    let (x, y) = (pair_word(x.0, x.1) as i32, pair_word(y.0, y.1) as i32);
    vec![
        origin, NONE, origin, origin, origin, corner, corner, 0, x, y, 0, BAD as i32,
    ]
}

/// Other sides for some planes, just held by their data, which stay what they were.
fn resize(planes: &mut [Own], width: i32, height: i32) {
    for own in planes {
        let other = tight(width, height, own.pel);
        own.plane = other.plane;
    }
}

fn pel_of_all(case: &mut EvaluateCase, planes: &mut [Own; 6], pel: i32) {
    case.pel = pel;
    planes.iter_mut().for_each(|own| own.pel = pel);
}

#[rustfmt::skip]
fn evaluations() -> Vec<Named> {
    vec![
        ("evaluate-radius-4", evaluate(|case, _| {
            case.search_param = 4;
            case.records = searched((-4, 4), (-4, 4));
        })),
        ("evaluate-8x16", evaluate(|case, _| case.block = (8, 16))),
        ("evaluate-pel-3", evaluate(|case, planes| pel_of_all(case, planes, 3))),
        ("evaluate-pel-4", evaluate(|case, planes| pel_of_all(case, planes, 4))),
        ("evaluate-shifts-0-1", evaluate(|case, planes| {
            case.shift = (0, 1);
            resize(&mut planes[1..3], 32, 16);
            resize(&mut planes[4..], 32, 16);
        })),
        ("evaluate-reference-pel-1", evaluate(|_, planes| planes[3].pel = 1)),
        ("evaluate-source-pel-3", evaluate(|_, planes| planes[0].pel = 3)),
        ("evaluate-pitch-31", evaluate(|_, planes| planes[0].plane.pitch = 31)),
        ("evaluate-pitch-65537", evaluate(|_, planes| {
            planes[3].plane.pitch = 65_537;
            planes[3].plane.length = planes[3].plane.least_length();
        })),
        ("evaluate-1x1", evaluate(|_, planes| resize(planes, 1, 1))),
        ("evaluate-16385x2", evaluate(|_, planes| resize(planes, 16_385, 2))),
        ("evaluate-u-31-wide", evaluate(|_, planes| {
            resize(&mut planes[1..2], 31, 32);
            resize(&mut planes[4..5], 31, 32);
        })),
        ("evaluate-reference-31-wide", evaluate(|_, planes| resize(&mut planes[3..4], 31, 32))),
        ("evaluate-2-30-bytes", evaluate(|_, planes| {
            planes[3].plane.length = 1 << 30;
            planes[3].fill.levels = 1;
        })),
        ("evaluate-base-2-40", evaluate(|_, planes| planes[3].plane.base = 1 << 40)),
        ("evaluate-no-bytes", evaluate(|_, planes| planes.iter_mut().for_each(|own| own.plane.length = 0))),
        ("evaluate-13-words", evaluate(|case, _| case.records.push(0))),
        ("evaluate-window-9x1", evaluate(|case, _| case.records = searched((-4, 4), (0, 0)))),
        ("evaluate-window-4x3", evaluate(|case, _| case.records = searched((-1, 2), (-1, 1)))),
        // behind it one whose cost is 0: nothing of the source is there, and its place is far outside the reference
        ("evaluate-window-4x3-and-another", evaluate(|case, _| {
            case.records = searched((-1, 2), (-1, 1));
            let far = pair_word(-4096, -4096) as i32;
            let empty = pair_word(0, -1) as i32;
            case.records.extend([NONE, NONE, NONE, NONE, NONE, far, far, 0, empty, empty, 0, BAD as i32]);
        })),
    ]
}
