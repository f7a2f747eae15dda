//! Cases of evaluation at each limit.

use crate::evaluate::{EvaluateCase, Planes};
use crate::evaluate_cases::{NONE, Words, to_words};
use crate::free_records::{
    BAD, CHROMA_POSITION, LAMBDA, NEGATIVE, POSITION, PREDICTOR, WINDOW_X, WINDOW_Y, lambda_word,
    pair_word,
};
use crate::plan_cases::{BLOCKS, SHIFTS, tight};
use crate::planes::{Fill, Plane};
use crate::random::{GREATEST, to_half};

pub(crate) fn cases() -> Vec<EvaluateCase> {
    let mut cases = Vec::new();
    for block in BLOCKS {
        for shift in SHIFTS {
            for (pel, satd) in [
                (1, false),
                (1, true),
                (2, false),
                (2, true),
                (4, false),
                (4, true),
            ] {
                let case = fixed(block, shift, pel, satd);
                for flags in 0..=BAD + NEGATIVE {
                    cases.push(with_records(&case, &presences(&case, flags)));
                    cases.push(with_records(&case, &edges(&case, flags)));
                }
                cases.push(with_records(&case, &outside(&case)));
            }
        }
    }
    cases.extend(corners());
    cases.extend(answered_elsewhere());
    cases.push(other_column());
    cases
}

/// A frame of 40x36 with bases and pitches of its own for every plane, all different.
fn fixed(block: (i32, i32), shift: (u32, u32), pel: i32, satd: bool) -> EvaluateCase {
    let size = (40, 36);
    let chroma = (size.0 >> shift.0, size.1 >> shift.1);
    let sizes = [size, chroma, chroma];
    let plane = |at: usize, base: usize, spare: i64| tight(base, sizes[at].0 + spare, sizes[at]);
    let fills = |levels| [3, 4, 5].map(|seed| Fill { seed, levels });
    let mut reference = Planes {
        planes: [plane(0, 5, 1), plane(1, 3, 2), plane(2, 0, 4)],
        fills: fills(256),
    };
    for plane in &mut reference.planes {
        plane.length = plane.full_length(pel);
    }
    // One measure goes with data that end within the last subplane.
    if satd {
        reference.planes[0].length = reference.planes[0]
            .least_length()
            .max(reference.planes[0].length - 300);
    }
    EvaluateCase {
        satd,
        pel,
        shift,
        block: (block.0 as usize, block.1 as usize),
        search_param: if satd { -2 } else { 2 },
        pnew: 30,
        source: Planes {
            planes: [plane(0, 2, 3), plane(1, 1, 0), plane(2, 4, 5)],
            fills: fills(256),
        },
        reference,
        records: Vec::new(),
    }
}

fn with_records(case: &EvaluateCase, records: &[Words]) -> EvaluateCase {
    let records = to_words(records);
    EvaluateCase {
        records,
        ..case.clone()
    }
}

/// A record whose samples all lie inside, predictor (1,-1), uncut window.
fn middle_record(case: &EvaluateCase, flags: i64) -> Words {
    let pel = i64::from(case.pel);
    let radius = case.search_param.abs();
    let (cx, cy) = (8 >> case.shift.0, 9 >> case.shift.1);
    let mut record = [300, 350, 70, 80, 310, 0, 0, 0, 0, 0, 77, 0];
    record[POSITION] = pair_word(8 * pel, 9 * pel);
    record[CHROMA_POSITION] = pair_word(cx * pel, cy * pel);
    record[PREDICTOR] = pair_word(1, -1);
    record[WINDOW_X] = pair_word(1 - radius, 1 + radius);
    record[WINDOW_Y] = pair_word(-1 - radius, -1 + radius);
    record[LAMBDA] = lambda_word(100, flags);
    record
}

/// Full, overlay and chroma, each present or absent.
fn presences(case: &EvaluateCase, flags: i64) -> Vec<Words> {
    let absent: [&[usize]; 3] = [&[0], &[1], &[2, 3]];
    let mut records = Vec::new();
    for code in 0..8 {
        let mut record = middle_record(case, flags);
        for (bit, places) in absent.iter().enumerate() {
            if code >> bit & 1 == 1 {
                places.iter().for_each(|&at| record[at] = NONE);
            }
        }
        records.push(record);
    }
    records
}

/// All offsets before, at and behind the ends of the data.
fn edges(case: &EvaluateCase, flags: i64) -> Vec<Words> {
    let [y, u, v] = case.source.planes.map(|plane| plane.length as i64);
    let lengths = [y, y, u, v, y];
    let mut records = Vec::new();
    for from_end in [-1, 0, 1] {
        let mut record = middle_record(case, flags);
        record[..5].copy_from_slice(&lengths.map(|length| length + from_end));
        records.push(record);
    }
    for offset in [NONE, NONE + 1, -60, -1, 0, GREATEST] {
        let mut record = middle_record(case, flags);
        record[..5].fill(offset);
        records.push(record);
    }
    records
}

/// Vectors and places that leave the reference on each side, cut and empty windows.
fn outside(case: &EvaluateCase) -> Vec<Words> {
    let mut records = Vec::new();
    for (x, y) in [
        (-32_768, 0),
        (32_767, 0),
        (0, -32_768),
        (0, 32_767),
        (-50, -50),
    ] {
        let mut record = middle_record(case, BAD);
        record[PREDICTOR] = pair_word(x, y);
        record[WINDOW_X] = pair_word(x.max(-32_767) - 1, x.min(32_766) + 1);
        record[WINDOW_Y] = pair_word(y, y);
        records.push(record);
        record[POSITION] = pair_word(to_half(2 * x), to_half(-y));
        record[WINDOW_X] = pair_word(x, -32_768);
        record[WINDOW_Y] = pair_word(0, -1);
        records.push(record);
    }
    records
}

/// 8x8 in 16x16 at pel 2, of whose four subplanes the data have the first alone. The two pictures are the same.
fn first_subplane() -> EvaluateCase {
    let frame = Planes {
        planes: [tight(0, 16, (16, 16)); 3],
        fills: [3, 4, 5].map(|seed| Fill { seed, levels: 256 }),
    };
    EvaluateCase {
        satd: false,
        pel: 2,
        shift: (0, 0),
        block: (8, 8),
        search_param: 1,
        pnew: 0,
        source: frame.clone(),
        reference: frame,
        records: Vec::new(),
    }
}

/// The block in the corner, its window empty.
fn corner_record(predictor: (i64, i64), flags: i64) -> Words {
    let mut record = [0, NONE, 0, 0, 0, 0, 0, 0, 0, 0, 10, 0];
    record[PREDICTOR] = pair_word(predictor.0, predictor.1);
    record[WINDOW_X] = pair_word(0, -1);
    record[WINDOW_Y] = pair_word(0, -1);
    record[LAMBDA] = lambda_word(0, flags);
    record
}

/// The smallest cases of what is absent. Of the plain block that is nothing at (0,0), all at (1,0), all but the first
/// sample of each plane at (-1,0), and that one alone at (-2,0). Behind them a row above the data and one below, and a
/// sample behind the last. Then the same where V has more data than U, fewer, or longer rows.
fn corners() -> Vec<EvaluateCase> {
    let mut cases = Vec::new();
    for chroma in corner_chromas() {
        let mut case = first_subplane();
        case.reference.planes[1..].copy_from_slice(&chroma);
        for predictor in [(0, 0), (1, 0), (-1, 0), (-2, 0), (0, -2), (0, 18), (18, 16)] {
            for flags in [BAD, BAD + NEGATIVE, 0] {
                cases.push(with_records(&case, &[corner_record(predictor, flags)]));
            }
        }
    }
    cases
}

/// U and V of the reference.
fn corner_chromas() -> [[Plane; 2]; 5] {
    let first = tight(0, 16, (16, 16));
    let whole = Plane {
        length: first.full_length(2),
        ..first
    };
    let wide = tight(0, 20, (16, 16));
    [
        [first, first],
        [first, whole],
        [whole, first],
        [first, wide],
        [whole, wide],
    ]
}

/// Where another vector than the predictor is answered, and not as many samples are absent there: none where all were,
/// and all where none was.
fn answered_elsewhere() -> [EvaluateCase; 2] {
    let real = first_subplane();
    let mut black = first_subplane();
    for fill in &mut black.source.fills {
        fill.levels = 1;
    }
    let towards = |predictor, x| {
        let mut record = corner_record(predictor, BAD);
        record[WINDOW_X] = pair_word(x, x);
        record[WINDOW_Y] = pair_word(0, 0);
        record
    };
    [
        with_records(&real, &[towards((1, 0), 0)]),
        with_records(&black, &[towards((0, 0), 1)]),
    ]
}

/// At pel 1 the last of three columns alone passes the distance test, and is given the luma of the first, which is the
/// source's. Of the last rows of its three planes one sample each is absent, of the predictor's two, of the first
/// column's none.
fn other_column() -> EvaluateCase {
    let mut case = first_subplane();
    case.pel = 1;
    for at in [1, 2] {
        case.source.fills[at].levels = 1;
        case.reference.fills[at].levels = 1;
    }
    let mut record = corner_record((2, 0), BAD);
    record[0] = 8 * 16 + 7;
    record[POSITION] = pair_word(8, 8);
    record[CHROMA_POSITION] = pair_word(8, 8);
    record[WINDOW_X] = pair_word(-1, 1);
    record[WINDOW_Y] = pair_word(0, 0);
    record[LAMBDA] = lambda_word(2000 * 256, BAD);
    with_records(&case, &[record])
}
