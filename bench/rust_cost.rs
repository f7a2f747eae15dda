//! The Rust's cost, called as `evaluate_recalc_cpu` calls it: with closures that look for the source sample in the overlay
//! and then in the full block, and for the reference sample at an offset, each behind a test of the data's ends.

use super::{NONE, cost};

pub(crate) struct Side<'a> {
    pub(crate) data: &'a [u8],
    pub(crate) pitch: usize,
    pub(crate) offset: i32,
}

fn fetch(data: &[u8], index: i64) -> i32 {
    usize::try_from(index)
        .ok()
        .and_then(|i| data.get(i))
        .map_or(0, |&v| i32::from(v))
}

pub(crate) fn rust_cost(satd: bool, width: usize, height: usize, source: &Side, reference: &Side, overlay: i32) -> u32 {
    let source_sample = |b: usize| -> i32 {
        let quarter = (width / 2) * (height / 2);
        if overlay != NONE && b < quarter {
            let (r, c) = (b / (width / 2), b % (width / 2));
            fetch(source.data, i64::from(overlay) + (r * source.pitch + c) as i64)
        } else if source.offset != NONE {
            let (r, c) = (b / width, b % width);
            fetch(source.data, i64::from(source.offset) + (r * source.pitch + c) as i64)
        } else {
            0
        }
    };
    let at = i64::from(reference.offset);
    let reference_sample = |y: usize, x: usize| fetch(reference.data, at + (y * reference.pitch + x) as i64);
    cost(satd, width, height, |y, x| source_sample(y * width + x), reference_sample)
}
