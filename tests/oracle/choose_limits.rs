//! Cases of choosing at each limit: every tie, every column, wrapping costs, empty windows.

use crate::analyse::field::recalc::RECORD;
use crate::choose::{GREATEST_LUMA, greatest_chroma, numbers, slots};
use crate::free_records::{BAD, LAMBDA, NEGATIVE, SAD, WINDOW_X, WINDOW_Y, lambda_word, pair_word};
use crate::random::{GREATEST, LEAST};

pub(crate) fn cases() -> Vec<Vec<i64>> {
    let mut cases = one_candidate();
    cases.extend(luma_ties());
    cases.extend(columns());
    cases.extend(extremes());
    cases.extend(windows());
    cases
}

/// A bad record at predictor (0,0) with an uncut window.
fn uncut(radius: i64, lambda: i64, flags: i64) -> [i64; RECORD] {
    let mut record = [0; RECORD];
    record[WINDOW_X] = pair_word(-radius, radius);
    record[WINDOW_Y] = pair_word(-radius, radius);
    record[LAMBDA] = lambda_word(lambda, flags);
    record
}

/// Every tie that one candidate can make.
fn one_candidate() -> Vec<Vec<i64>> {
    let mut cases = Vec::new();
    for (pel, shift) in [(1, 0), (1, 1), (2, 0), (2, 1)] {
        for pnew in [0, 256, -256] {
            for flags in [BAD, BAD + NEGATIVE] {
                for code in 0..81 {
                    let luma = [code % 3, code / 3 % 3];
                    let chroma = [code / 9 % 3, code / 27];
                    let head = [pel, shift, pnew, 0];
                    cases.push(numbers(head, &uncut(0, 0, flags), &luma, &chroma, 7));
                }
            }
        }
    }
    cases
}

/// Chroma's penalty wraps below 0: only there a tie at the luma test shows.
fn luma_ties() -> Vec<Vec<i64>> {
    let mut cases = Vec::new();
    for luma in 14..=18 {
        for chroma in 6..=10 {
            let (head, record) = ([2, 0, 1 << 28, 0], uncut(0, 0, BAD));
            cases.push(numbers(head, &record, &[16, luma], &[0, chroma], 0));
        }
    }
    cases
}

/// Different costs in every slot show which column's luma a candidate took.
fn columns() -> Vec<Vec<i64>> {
    let mut cases = Vec::new();
    for (pel, radius) in [(1, 1), (1, 2), (1, 3), (2, 1), (2, 3)] {
        for lambda in [-256, 0, 128, 256, 2560, 6400, 12_800, 25_600] {
            for least in [1, 5, 10, 50, 100, 900] {
                let rising: Vec<i64> = (0..slots(radius) as i64).collect();
                let chroma = vec![0; rising.len()];
                for turned in [false, true] {
                    let mut luma = rising.clone();
                    if turned {
                        luma.reverse();
                    }
                    luma[0] = least;
                    let record = uncut(radius, lambda, BAD);
                    cases.push(numbers([pel, 1, 0, radius], &record, &luma, &chroma, 0));
                }
            }
        }
    }
    cases
}

fn extremes() -> Vec<Vec<i64>> {
    let greatest = (1 << 29) - 1;
    let lambdas = [
        -greatest - 1,
        -greatest,
        -(1 << 28),
        -1,
        1,
        1 << 28,
        greatest,
    ];
    let words = [LEAST, -(1 << 30), -257, -1, 1, 255, 1 << 30, GREATEST];
    let mut cases = Vec::new();
    for lambda in lambdas {
        for pnew in words {
            for flags in 0..=3 {
                let mut record = uncut(1, lambda, flags);
                record[SAD] = pnew;
                let luma: Vec<i64> = (0..10).map(|i| GREATEST_LUMA - i * 100).collect();
                let chroma: Vec<i64> = (0..10).map(|i| greatest_chroma(1) - i * i).collect();
                cases.push(numbers([2, 1, pnew, 1], &record, &luma, &chroma, pnew));
            }
        }
    }
    cases
}

/// The sides of windows: four empty ones, one too long to be walked, three short ones.
#[rustfmt::skip]
const SIDES: [(i64, i64); 8] = [
    (0, -1), (32, -199), (1, 0), (32_767, -32_768), (-32_768, 32_767), (-1, 1), (5, 7), (-32_768, -32_768),
];

fn windows() -> Vec<Vec<i64>> {
    let mut cases = Vec::new();
    for x in SIDES {
        for y in SIDES {
            let walked = x.0 <= x.1 && y.0 <= y.1;
            if walked && (x.1 - x.0 > 2 || y.1 - y.0 > 2) {
                continue;
            }
            let mut record = uncut(1, 256, BAD);
            record[WINDOW_X] = pair_word(x.0, x.1);
            record[WINDOW_Y] = pair_word(y.0, y.1);
            let luma = [9, 8, 7, 6, 5, 4, 3, 2, 1, 0];
            cases.push(numbers([1, 0, 0, 1], &record, &luma, &[1; 10], 0));
            cases.push(numbers([4, 0, 0, 1], &record, &luma, &[1; 10], 0));
        }
    }
    cases
}
