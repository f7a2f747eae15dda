//! Cases of levels at each limit.

use crate::level_cases::{cut_from, least_lengths};
use crate::levels::{LAST_LEVEL, LONGEST_PITCH, LevelCase};
use crate::plan_cases::{LONGEST_DATA, SHIFTS};
use crate::random::{GREATEST, LEAST};

/// The numbers of a line before the lengths, and which of them is the flag.
const HEAD: usize = 13;
const SEPARATE: usize = 9;

pub(crate) fn plane_sizes() -> Vec<Vec<i64>> {
    let mut sizes = vec![LEAST, LEAST + 1, GREATEST - 1, GREATEST, 1080, 1920, 10];
    for power in 0..=7 {
        let near = (1 << (2 * power)) - 3..=(1 << (2 * power)) + 3;
        sizes.extend(near.clone().map(|size| -size));
        sizes.extend(near);
    }
    let levels = |size: i64| (-1..=16).map(move |level| vec![size, level]);
    sizes.into_iter().flat_map(levels).collect()
}

pub(crate) fn level_offsets() -> Vec<Vec<i64>> {
    let mut cases = Vec::new();
    for (x, y) in SHIFTS {
        for (pel, separate) in [(1, 0), (1, 1), (2, 0), (2, 1), (4, 0), (4, 1)] {
            let mut add = |height, level, pitch| {
                let shift = [i64::from(x), y.into()];
                cases.push(vec![
                    64, height, shift[0], shift[1], pel, level, pitch, separate,
                ]);
            };
            for level in 0..=i64::from(LAST_LEVEL) {
                for height in [0, 2, 3, 4, 7, 8, 10, 1080, 16_383, 16_384] {
                    add(height, level, 1);
                }
                add(16_384, level, LONGEST_PITCH.into());
            }
            for pitch in [0, 1, 2, 16, 65_535, 65_536] {
                add(10, 2, pitch);
            }
        }
    }
    cases
}

pub(crate) fn levels() -> Vec<Vec<i64>> {
    let mut cases = every_level();
    cases.extend(smallest());
    cases.extend(frame_sides());
    cases.extend(pels_and_shifts());
    cases.extend(pitches());
    cases.extend(lengths());
    cases.extend(longest());
    cases.extend(several());
    let mut lines: Vec<Vec<i64>> = cases.iter().map(LevelCase::numbers).collect();
    lines.extend(ends());
    lines
}

/// Tight pitches, and raw planes that just hold the level; the others have no bytes.
fn tight(size: (i32, i32), shift: (u32, u32), pel: i32, level: i32, separate: bool) -> LevelCase {
    let mut case = LevelCase::bare(size, shift, pel, level, separate);
    case.raw.pitches = case.widths();
    fit_lengths(&mut case);
    case
}

/// Where they can't be as long as they would have to be, one byte over the greatest length stands for it.
fn fit_lengths(case: &mut LevelCase) {
    let from = cut_from(case);
    let least = least_lengths(case).map(|least| least.min(LONGEST_DATA + 1));
    case.raw.lengths = [0; 6];
    case.raw.lengths[from..from + 3].copy_from_slice(&least);
}

/// Every level, pel and shift, with and without a separate source, of frames with sides next to powers of 4.
fn every_level() -> Vec<LevelCase> {
    let mut sides: Vec<i32> = (2..=20).collect();
    for power in [64, 256, 1024, 4096] {
        sides.extend([power - 1, power, power + 1]);
    }
    sides.extend([16_383, 16_384]);
    let mut cases = Vec::new();
    for level in -1..=16 {
        for (pel, shift) in [1, 2, 4].iter().flat_map(|pel| SHIFTS.map(|at| (*pel, at))) {
            for (at, &side) in sides.iter().enumerate() {
                let other = sides[(at * 7 + 3) % sides.len()];
                for size in [(side, side), (side, other)] {
                    cases.push(tight(size, shift, pel, level, false));
                    cases.push(tight(size, shift, pel, level, true));
                }
            }
        }
    }
    cases
}

/// 10x10 at pel 2 in rows of 16, level by level; then in rows of 9, which beside a separate source are wide enough.
fn smallest() -> Vec<LevelCase> {
    let mut cases = Vec::new();
    for level in 0..=4 {
        for separate in [false, true] {
            for pitch in [16, 9] {
                let mut case = tight((10, 10), (1, 1), 2, level, separate);
                case.raw.pitches = [pitch, pitch, pitch, 16, 16, 16];
                fit_lengths(&mut case);
                cases.push(case);
            }
        }
    }
    cases
}

/// Every side at its limits, with pitches and raw planes that hold them all.
fn frame_sides() -> Vec<LevelCase> {
    let mut cases = Vec::new();
    for level in [0, 1, 16] {
        for separate in [false, true] {
            let mut wide = tight((16, 16), (0, 0), 1, level.min(1), separate);
            wide.level = level;
            wide.raw.pitches = [LONGEST_PITCH; 6];
            wide.raw.lengths = [LONGEST_DATA; 6];
            for side in [0, 1, 2, 3, 4, 16_383, 16_384, 16_385] {
                for size in [(side, 16), (16, side), (side, side)] {
                    cases.push(LevelCase { size, ..wide });
                }
            }
        }
    }
    cases
}

fn pels_and_shifts() -> Vec<LevelCase> {
    let mut cases = Vec::new();
    for level in [0, 1] {
        for separate in [false, true] {
            let mut roomy = tight((20, 24), (0, 0), 4, level, separate);
            roomy.raw.lengths = [LONGEST_DATA; 6];
            cases.extend((-1..=9).map(|pel| LevelCase { pel, ..roomy }));
            for x in -1..=3 {
                cases.extend((-1..=3).map(|y| LevelCase {
                    shift: (x, y),
                    ..roomy
                }));
            }
        }
    }
    cases
}

/// The pitch of each raw plane next to its limits, of those that are not lent too.
fn pitches() -> Vec<LevelCase> {
    let mut cases = Vec::new();
    for size in [(2, 2), (5, 8), (10, 10), (64, 48)] {
        for (level, separate) in [(0, false), (0, true), (1, false), (1, true), (2, true)] {
            for shift in SHIFTS {
                let case = tight(size, shift, 2, level, separate);
                for (at, width) in case.widths().into_iter().enumerate() {
                    for pitch in [0, width - 1, width, width + 1, 65_535, 65_536, 65_537] {
                        let mut case = case;
                        case.raw.pitches[at] = pitch;
                        case.raw.lengths = [LONGEST_DATA; 6];
                        cases.push(case);
                    }
                }
            }
        }
    }
    cases
}

/// The length of each raw plane next to its limits, of those that the level isn't cut from too.
fn lengths() -> Vec<LevelCase> {
    let mut cases = Vec::new();
    for (level, separate) in [
        (0, false),
        (0, true),
        (1, false),
        (1, true),
        (2, false),
        (2, true),
    ] {
        for (pel, shift) in [1, 2, 4].iter().flat_map(|pel| SHIFTS.map(|at| (*pel, at))) {
            let mut case = tight((19, 22), shift, pel, level, separate);
            case.raw.pitches = case.raw.pitches.map(|pitch| pitch + 3);
            fit_lengths(&mut case);
            for at in 0..6 {
                let least = case.raw.lengths[at];
                let most = LONGEST_DATA;
                for length in [0, least.max(1) - 1, least, least + 1, most, most + 1] {
                    let mut case = case;
                    case.raw.lengths[at] = length;
                    cases.push(case);
                }
            }
        }
    }
    cases
}

/// A level 1 whose luma ends with the last byte that a plane may have, and its neighbours.
fn longest() -> Vec<LevelCase> {
    let mut cases = Vec::new();
    for width in 5629..=5637 {
        for pitch in [43_702, 43_703, 43_704] {
            let mut case = tight((width, 16_380), (1, 1), 1, 1, false);
            case.raw.pitches[0] = pitch;
            case.raw.lengths = [LONGEST_DATA; 6];
            cases.push(case);
        }
    }
    cases
}

/// Each reason for 2, 9 and 3 with each other.
fn several() -> Vec<LevelCase> {
    let mut cases = Vec::new();
    for code in 0..8 {
        for separate in [false, true] {
            for level in [0, 1, 2] {
                let mut case = tight((10, 10), (1, 1), 2, level, separate);
                if code & 1 == 1 {
                    case.pel = 3;
                }
                if code & 2 == 2 {
                    case.level = 16;
                }
                if code & 4 == 4 {
                    case.raw.lengths = [0; 6];
                }
                cases.push(case);
            }
        }
    }
    cases
}

/// Each number at the ends of an i32.
fn ends() -> Vec<Vec<i64>> {
    let mut lines = Vec::new();
    for level in [0, 1] {
        for separate in [false, true] {
            let mut case = tight((10, 10), (1, 1), 2, level, separate);
            case.raw.lengths = [LONGEST_DATA; 6];
            for at in (0..HEAD).filter(|at| *at != SEPARATE) {
                for end in [LEAST, LEAST + 1, -1, 0, 1, GREATEST - 1, GREATEST] {
                    let mut line = case.numbers();
                    line[at] = end;
                    lines.push(line);
                }
            }
        }
    }
    lines
}
