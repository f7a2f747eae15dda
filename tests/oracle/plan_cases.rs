//! Random cases of planning: inside the port's limits, and now and then one that it and the Rust both refuse.

use crate::analyse::field::recalc::inside;
use crate::plan::PlanCase;
use crate::planes::Plane;
use crate::random::{GREATEST, Random, to_half, to_word};

pub(crate) const BLOCKS: [(i32, i32); 3] = [(8, 8), (16, 8), (16, 16)];
pub(crate) const SHIFTS: [(u32, u32); 3] = [(0, 0), (1, 0), (1, 1)];
pub(crate) const LONGEST_DATA: usize = (1 << 30) - 1;
pub(crate) const LONGEST_SIDE: i64 = 16_384;

/// How far a case may go.
#[derive(Clone, Copy, PartialEq)]
enum Reach {
    /// As far as the port's limits.
    All,
    /// Planes of some kilobytes and at most 12 blocks, for cases whose bytes are read.
    Small,
}

pub(crate) fn any(random: &mut Random) -> PlanCase {
    let mut case = accepted(random, Reach::All);
    if random.one_in(10) {
        case.lambda = near_lambda_limit(random) as i32;
    }
    if random.one_in(8) {
        spoil(random, &mut case);
    }
    case
}

/// A case that the Rust accepts, for evaluation.
pub(crate) fn small(random: &mut Random) -> PlanCase {
    accepted(random, Reach::Small)
}

fn accepted(random: &mut Random, reach: Reach) -> PlanCase {
    let layout = layout(random, reach);
    let pel = random.pick(&[1, 2, 4]);
    let shift = random.pick(&SHIFTS);
    let size = sides(random, reach, &layout);
    let planes = |random: &mut Random| planes(random, reach, size, shift);
    on_planes(random, layout, pel, shift, planes)
}

/// The blocks, from which the least sides of the frame follow.
pub(crate) struct Layout {
    block: (i32, i32),
    grid: (i32, i32),
    step: (i32, i32),
}

fn layout(random: &mut Random, reach: Reach) -> Layout {
    let block = random.pick(&BLOCKS);
    let grid = grid(random, reach);
    let step = (step(random, block.0), step(random, block.1));
    Layout { block, grid, step }
}

/// Few blocks, and a frame that has room for them.
pub(crate) fn small_layout(random: &mut Random) -> (Layout, (i64, i64)) {
    let layout = layout(random, Reach::Small);
    let size = sides(random, Reach::Small, &layout);
    (layout, size)
}

/// A plan of these blocks. Its planes are made when their turn comes: a seed's lines depend on the order of the draws.
pub(crate) fn on_planes(
    random: &mut Random,
    layout: Layout,
    pel: i32,
    shift: (u32, u32),
    planes: impl FnOnce(&mut Random) -> [Plane; 3],
) -> PlanCase {
    let mut case = PlanCase {
        exhaustive: true,
        search_param: random.between(-3, 3) as i32,
        lambda: lambda(random) as i32,
        bad_sad: bad_sad(random) as i32,
        satd: random.flag(),
        block: layout.block,
        grid: layout.grid,
        step: layout.step,
        pel,
        smallest: random.flag(),
        need_luma: random.flag(),
        shift,
        planes: planes(random),
        order: order(random, layout.grid),
        vectors: Vec::new(),
    };
    case.vectors = vectors(random, &case);
    case
}

fn grid(random: &mut Random, reach: Reach) -> (i32, i32) {
    if reach == Reach::Small {
        return random.pick(&[
            (2, 2),
            (2, 2),
            (2, 3),
            (3, 2),
            (3, 3),
            (2, 4),
            (4, 3),
            (6, 2),
        ]);
    }
    let side = |random: &mut Random| random.between(2, 6) as i32;
    let (x, y) = (side(random), side(random));
    match random.below(20) {
        0 => (random.between(2, 60) as i32, 2),
        1 => (2, random.between(2, 60) as i32),
        _ => (x, y),
    }
}

fn step(random: &mut Random, block: i32) -> i32 {
    let block = i64::from(block);
    random.pick_or(&[block, block, block / 2, block / 4, 1], 1, block) as i32
}

fn sides(random: &mut Random, reach: Reach, layout: &Layout) -> (i64, i64) {
    let (block, grid, step) = (layout.block, layout.grid, layout.step);
    let width = frame_side(random, reach, grid.0, step.0, block.0);
    let height = frame_side(random, reach, grid.1, step.1, block.1);
    (width, height)
}

fn frame_side(random: &mut Random, reach: Reach, blocks: i32, step: i32, block: i32) -> i64 {
    let covered = i64::from((blocks - 1) * step + block);
    let spare = match random.below(12) {
        0..4 => 0,
        4..8 => random.between(0, 4),
        8..11 => random.between(0, 40),
        _ if reach == Reach::Small => 1,
        _ => random.pick_or(&[LONGEST_SIDE, 8192], 0, LONGEST_SIDE),
    };
    (covered + spare).min(LONGEST_SIDE)
}

/// Mostly one that fits a record; `any` goes to the limits.
fn lambda(random: &mut Random) -> i64 {
    match random.below(3) {
        0 => random.between(-20, 20),
        1 => random.between(0, 100_000),
        _ => random.word().clamp(-(1 << 30), (1 << 30) - 1),
    }
}

fn near_lambda_limit(random: &mut Random) -> i64 {
    if random.one_in(4) {
        return random.word();
    }
    random.pick(&[-(1 << 30), 1 << 30]) + random.between(-4, 4)
}

fn bad_sad(random: &mut Random) -> i64 {
    match random.below(4) {
        0 => random.between(-9, 9),
        3 => random.word(),
        _ => random.between(0, 3000),
    }
}

fn planes(random: &mut Random, reach: Reach, size: (i64, i64), shift: (u32, u32)) -> [Plane; 3] {
    let small = (size.0 >> shift.0, size.1 >> shift.1);
    [size, small, small].map(|size| match reach {
        Reach::Small => small_plane(random, size),
        Reach::All => any_plane(random, size),
    })
}

/// A plane with the shortest data that the port accepts.
pub(crate) fn tight(base: usize, pitch: i64, size: (i64, i64)) -> Plane {
    let mut plane = Plane {
        base,
        pitch: pitch as usize,
        width: size.0 as i32,
        height: size.1 as i32,
        length: 0,
    };
    plane.length = plane.least_length();
    plane
}

pub(crate) fn small_plane(random: &mut Random, size: (i64, i64)) -> Plane {
    let base = random.pick_or(&[0, 0], 0, 40);
    let pitch = size.0 + random.pick_or(&[0, 0, 1], 0, 12);
    let mut plane = tight(base as usize, pitch, size);
    plane.length += random.pick_or(&[0, 0, 1], 0, 50) as usize;
    plane
}

fn any_plane(random: &mut Random, size: (i64, i64)) -> Plane {
    if !random.one_in(4) {
        return small_plane(random, size);
    }
    let pitch = random.pick_or(&[size.0, 65_536], size.0, 65_536);
    let mut plane = tight(0, pitch, size);
    if plane.length > LONGEST_DATA {
        plane = tight(0, size.0, size);
    }
    let room = (LONGEST_DATA - plane.length) as i64;
    plane.base = random.pick_or(&[0, room], 0, room) as usize;
    let least = plane.least_length();
    plane.length = random.pick(&[least, LONGEST_DATA]);
    plane
}

fn order(random: &mut Random, grid: (i32, i32)) -> Vec<(i16, i16)> {
    let mut order = inside::serpentine_order(grid.0, grid.1);
    match random.below(5) {
        0 => order.sort_by_key(|&(x, y)| (y, x)),
        1 | 2 => random.shuffle(&mut order),
        3 => order = order.iter().map(|_| random.pick(&order)).collect(),
        _ => {}
    }
    order
}

fn vectors(random: &mut Random, case: &PlanCase) -> Vec<(i16, i16, i32)> {
    let (nx, ny) = case.grid;
    let mut vectors = Vec::new();
    for by in 0..ny {
        for bx in 0..nx {
            let rim = bx == 0 || by == 0 || bx == nx - 1 || by == ny - 1;
            let halved = case.smallest && rim;
            let y = &case.planes[0];
            let x_limits = limits(bx * case.step.0, case.block.0, y.width, halved, case.pel);
            let y_limits = limits(by * case.step.1, case.block.1, y.height, halved, case.pel);
            let predictor = predictor(random, x_limits, y_limits);
            let sad = sad(random, case.bad_sad.into());
            vectors.push((predictor.0 as i16, predictor.1 as i16, sad as i32));
        }
    }
    vectors
}

/// Where vectors of a block begin and end to leave the frame.
fn limits(origin: i32, side: i32, frame: i32, halved: bool, pel: i32) -> (i64, i64) {
    let (origin, side) = if halved {
        (origin + side / 4, side / 2)
    } else {
        (origin, side)
    };
    (
        i64::from(-pel * origin),
        i64::from(pel * (frame - origin - side)),
    )
}

fn predictor(random: &mut Random, x_limits: (i64, i64), y_limits: (i64, i64)) -> (i64, i64) {
    let (mut x, mut y) = (near(random, x_limits), near(random, y_limits));
    match random.below(16) {
        0 => x = far(random),
        1 => y = far(random),
        2 => (x, y) = (far(random), far(random)),
        _ => {}
    }
    (to_half(x), to_half(y))
}

fn near(random: &mut Random, (low, high): (i64, i64)) -> i64 {
    match random.below(8) {
        0..3 => random.between(-8, 8),
        3 => low + random.between(-6, 6),
        4 => high + random.between(-6, 6),
        _ => random.between(low, high.max(low)),
    }
}

fn far(random: &mut Random) -> i64 {
    if random.flag() {
        return random.half();
    }
    random.pick(&[-32_768, -32_767, 32_764, 32_766, 32_767])
}

fn sad(random: &mut Random, bad_sad: i64) -> i64 {
    to_word(match random.below(8) {
        0..3 => bad_sad + random.between(1, 1000),
        3 => bad_sad + random.between(-1, 1),
        4 => bad_sad / 3 + random.between(-1, 1),
        5 => random.between(0, 4000),
        _ => random.word(),
    })
}

/// One change that makes both the port and the Rust refuse.
fn spoil(random: &mut Random, case: &mut PlanCase) {
    match random.below(6) {
        0 => case.exhaustive = false,
        1 => {
            case.block =
                random.pick(&[(4, 4), (8, 16), (16, 4), (32, 16), (32, 32), (8, 7), (0, 8)])
        }
        2 => {
            let long = random.between(1, 5) as i32;
            case.grid = random.pick(&[(1, long), (long, 1)]);
            case.order.resize(long as usize, (0, 0));
            case.vectors.resize(long as usize, (0, 0, 0));
        }
        3 if random.flag() => case.order.push((0, 0)),
        3 => case.order.truncate(case.order.len() - 1),
        4 => {
            // i32::MIN is left out: its absolute value wraps in the Rust, which then does not refuse.
            let far = random.pick_or(&[4, 5, 100, GREATEST], 4, 1 << 30);
            case.search_param = random.pick(&[far, -far]) as i32;
        }
        _ => {
            let plane = random.below(3) as usize;
            case.planes[plane].length = LONGEST_DATA + random.between(1, 9) as usize;
        }
    }
}
