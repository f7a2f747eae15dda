//! Samples that are not there, and the fifth number of a best, which counts them. The Rust has no such number: it is
//! counted here sample by sample, from the Rust's own `subpel` on and in its own data.

use crate::analyse::field::recalc::{RECORD, inside};
use crate::analyse::planes::{LevelFrame, PlaneView};
use crate::evaluate::{Best, EvaluateCase};
use crate::free_records::{BAD, NEGATIVE};

/// The fifth number where the record is not bad.
const NOT_BAD: i32 = -1;

/// The byte that the plane's data have at an offset, if they have one.
pub(crate) fn sample(view: &PlaneView<'_>, offset: isize) -> Option<u8> {
    let at = usize::try_from(offset).ok()?;
    view.data().get(at).copied()
}

/// Of a block whose first sample is at an offset, how many samples lie outside the plane's data.
pub(crate) fn absent(
    view: &PlaneView<'_>,
    offset: isize,
    (width, height): (usize, usize),
) -> usize {
    let mut count = 0;
    for y in 0..height {
        for x in 0..width {
            let at = offset + (y * view.pitch + x) as isize;
            if sample(view, at).is_none() {
                count += 1;
            }
        }
    }
    count
}

/// What the Rust answers for each record, and behind it the fifth number.
pub(crate) fn counted(
    case: &EvaluateCase,
    reference: &LevelFrame<'_>,
    bests: &[[i32; 4]],
) -> Vec<Best> {
    let records = case.records.chunks(RECORD);
    let best = |(record, &[x, y, sad, average]): (&[i32], &[i32; 4])| {
        let outside = outside(case, reference, record, (x, y));
        [x, y, sad, average, outside]
    };
    records.zip(bests).map(best).collect()
}

/// At the vector that is answered: luma over the sides that are searched, and both chroma planes of a plain block. V is
/// read from U's offset on, in rows of its own pitch, as the Rust reads it.
fn outside(
    case: &EvaluateCase,
    reference: &LevelFrame<'_>,
    words: &[i32],
    (x, y): (i32, i32),
) -> i32 {
    let record = inside::unrecord(words);
    let (place, chroma_place) = ((record[5], record[6]), (record[7], record[8]));
    let flags = i64::from(record[17]);
    if flags & BAD == 0 {
        return NOT_BAD;
    }
    let (width, height) = case.block;
    let offset = reference.y.subpel(place.0 + x, place.1 + y);
    if flags & NEGATIVE != 0 {
        return absent(&reference.y, offset, (width / 2, height / 2)) as i32;
    }
    let shift = case.shift.0;
    let chroma = (width >> shift, height >> shift);
    let chroma_offset = reference
        .u
        .subpel(chroma_place.0 + (x >> shift), chroma_place.1 + (y >> shift));
    let count = absent(&reference.y, offset, case.block)
        + absent(&reference.u, chroma_offset, chroma)
        + absent(&reference.v, chroma_offset, chroma);
    count as i32
}
