//! The harness's hand inside recalc.rs: every private item of the Rust that a case needs is reached from here, and
//! nowhere else.

use super::super::{BlockLayout, Field, Mv, SearchSettings, SearchType, packed_score};
use super::{RECORD, RecalcPlan, Record, cost, pack, select, unpack};
use crate::analyse::planes::LevelFrame;
use crate::choose::ChooseCase;
use crate::evaluate::EvaluateCase;
use crate::finish::FinishCase;
use crate::plan::PlanCase;

pub(crate) fn pair(a: i32, b: i32) -> Option<i32> {
    pack(a, b)
}

pub(crate) fn unpair(word: i32) -> (i32, i32) {
    unpack(word)
}

pub(crate) fn record(values: &[i32; 18]) -> Option<[i32; RECORD]> {
    let v = values;
    let record = Record {
        full: v[0],
        overlay: v[1],
        u: v[2],
        v: v[3],
        average: v[4],
        pos: (v[5], v[6]),
        cpos: (v[7], v[8]),
        predictor: (v[9], v[10]),
        window: (v[11], v[12], v[13], v[14]),
        sad: v[15],
        lambda: v[16],
        flags: v[17],
    };
    record.pack()
}

pub(crate) fn unrecord(words: &[i32]) -> [i32; 18] {
    let r = Record::unpack(words);
    let (min_x, max_x, min_y, max_y) = r.window;
    [
        r.full,
        r.overlay,
        r.u,
        r.v,
        r.average,
        r.pos.0,
        r.pos.1,
        r.cpos.0,
        r.cpos.1,
        r.predictor.0,
        r.predictor.1,
        min_x,
        max_x,
        min_y,
        max_y,
        r.sad,
        r.lambda,
        r.flags,
    ]
}

pub(crate) fn block_cost(
    satd: bool,
    size: (usize, usize),
    pitch: usize,
    a: &[u8],
    b: &[u8],
) -> u32 {
    let of = |block: &[u8], y: usize, x: usize| i32::from(block[y * pitch + x]);
    cost(satd, size.0, size.1, |y, x| of(a, y, x), |y, x| of(b, y, x))
}

/// `Mv::new` cuts a component that is beyond i16.
pub(crate) fn score(x: i32, y: i32, sad: i32, diagonal: i32, average: i32) -> i32 {
    packed_score(Mv::new(x, y, sad), diagonal, average) as i32
}

/// A field of a grid alone: the serpentine and finishing look at nothing else of it.
fn grid(nx: i32, ny: i32, lean: bool) -> Field {
    let layout = BlockLayout {
        width: 8,
        height: 8,
        overlap_x: 0,
        overlap_y: 0,
    };
    Field::new(nx, ny, layout, 1, 0, 1, false, false, (0, 0), lean)
}

pub(crate) fn serpentine_position(nx: i32, ny: i32, bx: i32, by: i32) -> i32 {
    grid(nx, ny, true).serpentine_position(bx, by)
}

pub(crate) fn serpentine_block(nx: i32, ny: i32, position: i32) -> (i32, i32) {
    grid(nx, ny, true).serpentine_block(position)
}

/// At level 0 `set_order` adds no blocks outside the grid.
pub(crate) fn serpentine_order(nx: i32, ny: i32) -> Vec<(i16, i16)> {
    let mut field = grid(nx, ny, false);
    field.set_order(None);
    field.order
}

pub(crate) struct Planned {
    pub(crate) slots: usize,
    pub(crate) diagonal: i32,
    pub(crate) records: Vec<i32>,
    pub(crate) indices: Vec<u32>,
}

pub(crate) fn plan(case: &PlanCase, source: &LevelFrame<'_>) -> Option<Planned> {
    let (done, planned) = plan_as_left(case, source);
    done.then_some(planned)
}

/// Whether it plans, and what is in the plan afterwards, also where it does not.
pub(crate) fn plan_as_left(case: &PlanCase, source: &LevelFrame<'_>) -> (bool, Planned) {
    let mut plan = RecalcPlan::default();
    let done = field(case).plan_recalculate(source, &settings(case), case.need_luma, &mut plan);
    let planned = Planned {
        slots: plan.slots,
        diagonal: plan.diagonal,
        records: plan.records,
        indices: plan.indices,
    };
    (done, planned)
}

fn field(case: &PlanCase) -> Field {
    let (width, height) = case.block;
    let layout = BlockLayout {
        width,
        height,
        overlap_x: width - case.step.0,
        overlap_y: height - case.step.1,
    };
    let (nx, ny) = case.grid;
    let mut field = Field::new(
        nx,
        ny,
        layout,
        case.pel,
        0,
        1,
        case.smallest,
        case.satd,
        case.shift,
        true,
    );
    field.order = case.order.clone();
    field.vectors = case
        .vectors
        .iter()
        .map(|&(x, y, sad)| Mv { x, y, sad })
        .collect();
    field
}

/// Planning looks at type, parameter, lambda and `bad_sad`; the other settings are other passes'.
fn settings(case: &PlanCase) -> SearchSettings {
    SearchSettings {
        search_type: if case.exhaustive {
            SearchType::Exhaustive
        } else {
            SearchType::Hex2
        },
        search_param: case.search_param,
        lambda: case.lambda,
        lsad: 0,
        pnew: 0,
        plevel: 0.0,
        pzero: 0,
        pglobal: 0,
        pnbour: 0,
        preverse: 0,
        bad_sad: case.bad_sad,
        bad_range: false,
        try_many: false,
        exact: false,
        flags: 0,
    }
}

pub(crate) fn evaluate(
    case: &EvaluateCase,
    source: &LevelFrame<'_>,
    reference: &LevelFrame<'_>,
) -> Vec<[i32; 4]> {
    let plan = RecalcPlan {
        records: case.records.clone(),
        indices: vec![0; case.records.len() / RECORD],
        slots: case.slots(),
        width: case.block.0,
        height: case.block.1,
        satd: case.satd,
        shift: case.shift.0,
        diagonal: 0,
        pnew: case.pnew,
        pel: case.pel,
    };
    Field::evaluate_recalc_cpu(&plan, source, reference)
}

pub(crate) fn choose(case: &ChooseCase) -> [i32; 4] {
    let plan = RecalcPlan {
        records: case.record.clone(),
        indices: vec![0],
        slots: case.luma.len(),
        shift: case.shift,
        pnew: case.pnew,
        pel: case.pel,
        ..RecalcPlan::default()
    };
    select(&plan, 0, &case.luma, &case.chroma, case.average)
}

/// The vectors of the whole grid and, where asked for, the output's words; all start at 0.
pub(crate) fn finish(case: &FinishCase) -> (Vec<(i16, i16, i32)>, Vec<u32>) {
    let blocks = (case.grid.0 * case.grid.1) as usize;
    let words = if case.output { 2 * blocks } else { 0 };
    let mut finished = Finished::new(case.grid, blocks, words);
    finished.finish(case);
    (finished.vectors(), finished.words)
}

/// What finishing writes, of any lengths, held apart from the call: so it can be seen after a stop too.
pub(crate) struct Finished {
    field: Field,
    pub(crate) words: Vec<u32>,
}

impl Finished {
    pub(crate) fn new((nx, ny): (i32, i32), vectors: usize, words: usize) -> Self {
        let mut field = grid(nx, ny, false);
        field.vectors.resize(vectors, Mv::default());
        Self {
            field,
            words: vec![0; words],
        }
    }

    pub(crate) fn finish(&mut self, case: &FinishCase) {
        let plan = RecalcPlan {
            indices: case.indices.clone(),
            diagonal: case.diagonal,
            ..RecalcPlan::default()
        };
        // The Rust's bests are four numbers: it never sees the fifth.
        let bests = case.bests.iter();
        let four: Vec<[i32; 4]> = bests
            .map(|&[x, y, sad, average, _]| [x, y, sad, average])
            .collect();
        let asked = case.output.then_some(self.words.as_mut_slice());
        self.field.finish_recalculate(&plan, &four, asked);
    }

    pub(crate) fn vectors(&self) -> Vec<(i16, i16, i32)> {
        let vectors = self.field.vectors.iter();
        vectors.map(|mv| (mv.x, mv.y, mv.sad)).collect()
    }
}
