//! Random cases of levels: of `level` mostly such as the port serves, at every level, and about one in five that it
//! refuses.

use crate::levels::{LAST_LEVEL, LONGEST_PITCH, LevelCase, three};
use crate::plan_cases::{LONGEST_DATA, LONGEST_SIDE, SHIFTS};
use crate::planes::Plane;
use crate::random::{GREATEST, LEAST, Random};

pub(crate) fn plane_size(random: &mut Random) -> Vec<i64> {
    let size = match random.below(3) {
        0 => random.word(),
        1 => -side(random, 0),
        _ => side(random, 0),
    };
    vec![size, random.pick_or(&[0, 1, 2, 3, 4], -3, 40)]
}

pub(crate) fn level_offset(random: &mut Random) -> Vec<i64> {
    let (width, height) = (side(random, 0), side(random, 0));
    let (x, y) = random.pick(&SHIFTS);
    let pel = random.pick(&[1, 2, 4]);
    let level = random.pick_or(&[0, 1, 2, 3, 4], 0, LAST_LEVEL.into());
    let longest = LONGEST_PITCH.into();
    let pitch = random.pick_or(&[0, 1, longest], 0, longest);
    let separate = random.flag().into();
    vec![
        width,
        height,
        x.into(),
        y.into(),
        pel,
        level,
        pitch,
        separate,
    ]
}

pub(crate) fn any(random: &mut Random) -> LevelCase {
    let mut case = served(random);
    if random.one_in(5) {
        let edge = Edge::of(&case);
        for _ in 0..random.pick(&[1, 1, 1, 2, 3]) {
            edge.cross(random, &mut case);
        }
    }
    case
}

fn served(random: &mut Random) -> LevelCase {
    let level = random.pick_or(&[0, 1, 2, 3, 4], 0, 13);
    let size = (side(random, level) as i32, side(random, level) as i32);
    let (shift, pel) = (random.pick(&SHIFTS), random.pick(&[1, 2, 4]));
    let mut case = LevelCase::bare(size, shift, pel, level as i32, random.flag());
    case.raw.pitches = case.widths().map(|width| pitch(random, width.into()));
    // A large frame with its subplanes can be longer than a raw plane may be.
    if least_lengths(&case)
        .iter()
        .any(|&least| least > LONGEST_DATA)
    {
        case.pel = 1;
        case.raw.pitches = case.widths();
    }
    lend(random, &mut case);
    case
}

/// A side that doesn't come to 0 at the level: small, next to some times a power of 4, a usual one, or any.
fn side(random: &mut Random, level: i64) -> i64 {
    let least = 2 << level;
    let side = match random.below(4) {
        0 => least + random.between(0, 18),
        1 => (random.between(1, 9) << (2 * random.below(8))) + random.between(-3, 3),
        2 => random.pick(&[720, 1080, 1920, LONGEST_SIDE - 1, LONGEST_SIDE]),
        _ => random.between(least, LONGEST_SIDE),
    };
    side.clamp(least, LONGEST_SIDE)
}

fn pitch(random: &mut Random, width: i64) -> i32 {
    let longest = LONGEST_PITCH.into();
    random.pick_or(&[width, width, width + 1, longest], width, width + 40) as i32
}

/// Raw planes that are long enough where the level is cut from them, and any others.
fn lend(random: &mut Random, case: &mut LevelCase) {
    let longest = LONGEST_DATA as i64;
    for length in &mut case.raw.lengths {
        *length = random.pick_or(&[0, 1, longest + 1], 0, 5000) as usize;
    }
    let from = cut_from(case);
    for (at, least) in least_lengths(case).into_iter().enumerate() {
        let least = least as i64;
        let length = random.pick_or(&[least, least, least + 1, longest], least, least + 5000);
        case.raw.lengths[from + at] = length.min(longest) as usize;
    }
    if !case.raw.separate {
        let source = &mut case.raw.pitches[3..];
        source.fill_with(|| random.word() as i32);
    }
}

/// The first of the three raw planes that the level is cut from.
pub(crate) fn cut_from(case: &LevelCase) -> usize {
    if case.from_source() { 3 } else { 0 }
}

/// The shortest data that hold each plane; none where a side comes to 0.
pub(crate) fn least_lengths(case: &LevelCase) -> [usize; 3] {
    three(&case.level([&[]; 6])).map(|view| {
        let plane = Plane::of(&view);
        if plane.height == 0 {
            return 0;
        }
        plane.least_length()
    })
}

/// Where a served case ends: what one step more is refused.
struct Edge {
    widths: [i32; 6],
    /// The first level at which a side comes to 0.
    gone: u32,
    from: usize,
    least: [usize; 3],
}

impl Edge {
    fn of(case: &LevelCase) -> Self {
        Self {
            widths: case.widths(),
            gone: case.size.0.min(case.size.1).ilog2(),
            from: cut_from(case),
            least: least_lengths(case),
        }
    }

    fn cross(&self, random: &mut Random, case: &mut LevelCase) {
        match random.below(3) {
            0 => self.cross_number(random, case),
            1 => {
                let gone = random.between(self.gone.into(), LAST_LEVEL.into());
                case.level = random.pick_or(&[gone, gone, gone, -1, 16], LEAST, GREATEST) as i32;
            }
            _ => {
                let at = random.below(3) as usize;
                let short = self.least[at] as i64 - 1;
                let longest = LONGEST_DATA as i64;
                case.raw.lengths[self.from + at] =
                    random.pick_or(&[short, short, longest + 1], 0, short) as usize;
            }
        }
    }

    fn cross_number(&self, random: &mut Random, case: &mut LevelCase) {
        let end = random.pick(&[LEAST, GREATEST]);
        let side = random.pick(&[-1, 0, 1, LONGEST_SIDE + 1, end]) as i32;
        match random.below(6) {
            0 => case.size.0 = side,
            1 => case.size.1 = side,
            2 => case.pel = random.pick(&[-1, 0, 3, 5, 8, end]) as i32,
            3 => {
                let far = end as i32;
                case.shift = random.pick(&[(0, 1), (2, 0), (1, 2), (-1, 0), (1, -1), (far, far)]);
            }
            _ => {
                let lent = if case.raw.separate { 6 } else { 3 };
                let at = random.below(lent) as usize;
                let narrow = i64::from(self.widths[at]) - 1;
                case.raw.pitches[at] =
                    random.pick(&[narrow, narrow, i64::from(LONGEST_PITCH) + 1, end]) as i32;
            }
        }
    }
}
