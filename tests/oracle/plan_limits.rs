//! Cases of planning at each limit.

use crate::plan::PlanCase;
use crate::plan_cases::{BLOCKS, LONGEST_DATA, SHIFTS, tight};

/// Where a block's SAD stands with `bad_sad` 100, plain or negative.
const GOOD: i32 = 10;
const POOR: i32 = 1000;
/// A predictor that leaves the frame on the left.
const OUT: i16 = -200;

pub(crate) fn cases() -> Vec<PlanCase> {
    let mut cases = predictors();
    cases.extend(runs());
    cases.extend(mixed_runs());
    cases.extend(lambdas());
    cases.extend(sads());
    cases.extend(refusals());
    cases.extend(positions());
    cases
}

/// All blocks good, standing still, in rows, with the frame's sides as given.
fn still(
    block: (i32, i32),
    grid: (i32, i32),
    frame: (i64, i64),
    pel: i32,
    shift: (u32, u32),
) -> PlanCase {
    let chroma = (frame.0 >> shift.0, frame.1 >> shift.1);
    let rows = (0..grid.1 as i16).flat_map(|y| (0..grid.0 as i16).map(move |x| (x, y)));
    PlanCase {
        exhaustive: true,
        search_param: 3,
        lambda: 400,
        bad_sad: 100,
        satd: false,
        block,
        grid,
        step: block,
        pel,
        smallest: false,
        need_luma: false,
        shift,
        planes: [frame, chroma, chroma].map(|size| tight(0, size.0, size)),
        order: rows.collect(),
        vectors: vec![(0, 0, GOOD); (grid.0 * grid.1) as usize],
    }
}

fn small() -> PlanCase {
    still((8, 8), (2, 2), (64, 64), 2, (1, 1))
}

/// The block at (8,8), bad, with every predictor from beyond one limit to beyond the other, on either axis.
fn predictors() -> Vec<PlanCase> {
    let mut cases = Vec::new();
    let frames = [
        (1, 64),
        (2, 64),
        (4, 64),
        (1, 16),
        (2, 16),
        (4, 16),
        (2, 17),
        (2, 18),
    ];
    for (pel, side) in frames {
        let base = still((8, 8), (2, 2), (side, side), pel, (1, 1));
        let (low, high) = (-pel * 8 - 8, pel * (side as i32 - 16) + 8);
        for v in (low..=high).chain([-32_768, -200, 200, 32_767]) {
            for (x, y) in [(v as i16, 0), (0, v as i16), (v as i16, v as i16)] {
                let mut case = base.clone();
                case.vectors[3] = (x, y, POOR);
                // The tightest frame goes through every radius.
                if side == 16 {
                    case.search_param = v.rem_euclid(4);
                }
                cases.push(case);
            }
        }
    }
    cases
}

/// Not bad, bad and inside, bad and outside.
fn states(code: usize) -> impl Iterator<Item = (i16, i16, i32)> {
    let kinds = [(0, 0, GOOD), (0, 0, POOR), (OUT, 0, POOR)];
    (0..4).map(move |at| kinds[code / 3usize.pow(at) % 3])
}

/// Every run of four blocks, all plain or all negative.
fn runs() -> Vec<PlanCase> {
    let mut cases = Vec::new();
    for code in 0..81 {
        for (smallest, need_luma) in [(false, false), (false, true), (true, false), (true, true)] {
            let mut case = small();
            (case.smallest, case.need_luma) = (smallest, need_luma);
            case.vectors = states(code).collect();
            cases.push(case);
        }
    }
    cases
}

/// Every run of plain, negative, plain, negative blocks, and of two negative and two plain ones.
fn mixed_runs() -> Vec<PlanCase> {
    let mut cases = Vec::new();
    let (left, right, corner, top) = ((1, 1), (2, 1), (0, 0), (1, 0));
    for first in [[left, corner, right, top], [corner, top, left, right]] {
        for code in 0..81 {
            for need_luma in [false, true] {
                let mut case = still((8, 8), (4, 3), (64, 64), 2, (1, 1));
                (case.smallest, case.need_luma) = (true, need_luma);
                case.order.retain(|place| !first.contains(place));
                case.order.splice(0..0, first);
                for ((x, y), state) in first.into_iter().zip(states(code)) {
                    case.vectors[(y * 4 + x) as usize] = state;
                }
                cases.push(case);
            }
        }
    }
    cases
}

/// The setting at its limits, on plain and negative blocks, bad and not.
fn lambdas() -> Vec<PlanCase> {
    let mut settings: Vec<i32> = (-14..=14)
        .chain([i32::MIN, i32::MIN + 1, i32::MAX])
        .collect();
    for limit in [-(1 << 30), 1 << 30] {
        settings.extend(limit - 4..=limit + 4);
    }
    let mut cases = Vec::new();
    for lambda in settings {
        for (side, smallest) in [(2, false), (2, true), (3, true)] {
            for sad in [GOOD, POOR] {
                let mut case = still((8, 8), (side, side), (64, 64), 2, (1, 1));
                (case.lambda, case.smallest) = (lambda, smallest);
                case.vectors.fill((0, 0, sad));
                cases.push(case);
            }
        }
    }
    cases
}

/// SADs next to `bad_sad` and next to its third.
fn sads() -> Vec<PlanCase> {
    let mut cases = Vec::new();
    let near_zero = (-4..=4).chain([-100, 100]);
    for bad_sad in near_zero.chain([i32::MIN, i32::MIN + 1, i32::MAX]) {
        for limit in [bad_sad, bad_sad / 3] {
            for step in -1..=1 {
                let mut case = still((8, 8), (3, 3), (64, 64), 2, (1, 1));
                (case.bad_sad, case.smallest) = (bad_sad, true);
                case.vectors.fill((0, 0, limit.saturating_add(step)));
                cases.push(case);
            }
        }
    }
    cases
}

fn refusals() -> Vec<PlanCase> {
    let with = |change: &dyn Fn(&mut PlanCase)| {
        let mut case = small();
        change(&mut case);
        case
    };
    let mut cases = vec![
        with(&|_| ()),
        with(&|case| case.exhaustive = false),
        with(&|case| case.order.push((0, 0))),
        with(&|case| case.order.truncate(3)),
        with(&|case| case.order = vec![(1, 1); 4]),
    ];
    for width in [4, 8, 16, 32] {
        for height in [4, 8, 16, 32] {
            cases.push(with(&|case| {
                (case.block, case.step) = ((width, height), (4, 4))
            }));
        }
    }
    for grid in [(0, 0), (1, 1), (1, 4), (4, 1), (0, 4), (4, 0), (-2, -2)] {
        cases.push(with(&|case| case.grid = grid));
    }
    for search_param in [-i32::MAX, -5, -4, -3, -2, -1, 0, 1, 2, 3, 4, 5, i32::MAX] {
        cases.push(with(&|case| case.search_param = search_param));
    }
    for plane in 0..3 {
        for length in [LONGEST_DATA, LONGEST_DATA + 1] {
            cases.push(with(&|case| case.planes[plane].length = length));
        }
        cases.push(with(&|case| {
            case.planes[plane].base = LONGEST_DATA - case.planes[plane].length;
            case.planes[plane].length = LONGEST_DATA;
            case.vectors.fill((0, 0, POOR));
        }));
    }
    cases
}

/// At pel 4 a place above 8,191 and a window above 32,767 do not fit; every block size and shift goes along.
fn positions() -> Vec<PlanCase> {
    let mut cases = Vec::new();
    for block in BLOCKS {
        for shift in SHIFTS {
            for pel in [1, 2, 4] {
                for place in [8190, 8191, 8192, 8193] {
                    let (width, height) = (i64::from(block.0), i64::from(block.1));
                    let frame = [(place + width, 64), (64, place + height)];
                    for (at, size) in frame.into_iter().enumerate() {
                        let mut case = still(block, (2, 2), size, pel, shift);
                        let v = [(-32_768, 0), (0, -32_768)][at];
                        case.vectors[3] = (v.0, v.1, POOR);
                        cases.push(case);
                    }
                }
                for v in 32_762..=32_767 {
                    let mut case = still(block, (2, 2), (16_384, 64), pel, shift);
                    case.vectors[3] = (v, 0, POOR);
                    cases.push(case);
                }
            }
        }
    }
    cases
}
