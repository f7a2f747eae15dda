//! The harness's hand inside planes.rs, as inside.rs is the one inside recalc.rs.

use super::SuperFrameView;

pub(crate) fn level_offset(
    frame: &SuperFrameView<'_>,
    level: i32,
    pitch: usize,
    y_shift: u32,
) -> usize {
    frame.level_offset(level, pitch, y_shift)
}
