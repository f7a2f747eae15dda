//! The Rust's evaluation of records that were planned before. A plan's fields are private to recalc.rs, so this is its child.

use super::{Field, RECORD, RecalcPlan};
use crate::analyse::planes::LevelFrame;

pub(crate) struct Asked {
    pub(crate) satd: bool,
    pub(crate) block: (usize, usize),
    pub(crate) radius: usize,
    pub(crate) shift: u32,
    pub(crate) pnew: i32,
    pub(crate) pel: i32,
}

pub(crate) fn rust_plan(asked: &Asked, records: &[i32]) -> RecalcPlan {
    let side = 2 * asked.radius + 1;
    RecalcPlan {
        records: records.to_vec(),
        indices: vec![0; records.len() / RECORD],
        slots: 1 + side * side,
        width: asked.block.0,
        height: asked.block.1,
        satd: asked.satd,
        shift: asked.shift,
        diagonal: 0,
        pnew: asked.pnew,
        pel: asked.pel,
    }
}

pub(crate) fn rust_bests(plan: &RecalcPlan, source: &LevelFrame, reference: &LevelFrame) -> Vec<[i32; 4]> {
    Field::evaluate_recalc_cpu(plan, source, reference)
}
