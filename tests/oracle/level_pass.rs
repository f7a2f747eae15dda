//! The kind level_pass: the pass on the planes of a level, cut by the Rust from two super frames.

use crate::analyse::field::recalc::inside;
use crate::evaluate::{EvaluateCase, Planes};
use crate::evaluate_cases::fill;
use crate::free_records::random_pnew;
use crate::kinds::Kind;
use crate::level_cases::cut_from;
use crate::levels::{LevelCase, RawPlanes, three};
use crate::lines::{Fault, Numbers, Work};
use crate::pass::PassCase;
use crate::plan::{Ground, PlanCase};
use crate::plan_cases::{self, SHIFTS};
use crate::planes::{Fill, Plane};
use crate::random::Random;

pub(crate) const LEVEL_PASS: Kind = Kind {
    name: "level_pass",
    read: read_level_pass,
    random: |random| match random_level_pass(random) {
        Ok(case) => case.numbers(),
        Err(fault) => panic!("{fault}"),
    },
    limits: Vec::new,
};

/// A super frame and how the bytes of its raw planes are made.
#[derive(Clone, Copy)]
struct Filled {
    case: LevelCase,
    fills: [Fill; 6],
}

impl Filled {
    fn read(case: LevelCase, numbers: &mut Numbers<'_>) -> Result<Self, Fault> {
        let mut fills = [Fill { seed: 0, levels: 1 }; 6];
        for fill in &mut fills {
            *fill = Fill::read(numbers)?;
        }
        Ok(Self { case, fills })
    }

    fn fill_numbers(&self) -> Vec<i64> {
        let fills = self.fills.iter();
        fills
            .flat_map(|fill| [fill.seed.into(), fill.levels.into()])
            .collect()
    }

    fn bytes(&self) -> [Vec<u8>; 6] {
        [0, 1, 2, 3, 4, 5].map(|at: usize| self.fills[at].bytes(self.case.raw.lengths[at]))
    }

    /// A level that is refused has no planes: the kind `level` speaks of it.
    fn ground(&self) -> Result<Ground, Fault> {
        let (x, y) = self.case.shift;
        let ground = self.case.asked(|frame| Ground {
            pel: frame.y.pel(),
            shift: (x as u32, y as u32),
            planes: three(frame).map(|view| Plane::of(&view)),
        });
        ground.map_err(|number| format!("the level is refused with {number}"))
    }

    fn planes(&self) -> Result<Planes, Fault> {
        let from = cut_from(&self.case);
        Ok(Planes {
            planes: self.ground()?.planes,
            fills: [0, 1, 2].map(|at: usize| self.fills[from + at]),
        })
    }
}

struct LevelPassCase {
    source: Filled,
    reference: Filled,
    pass: PassCase,
}

impl LevelPassCase {
    fn of(
        source: Filled,
        reference: Filled,
        plan: PlanCase,
        pnew: i32,
        output: bool,
    ) -> Result<Self, Fault> {
        let evaluate = EvaluateCase::of(&plan, pnew, source.planes()?, reference.planes()?);
        let pass = PassCase {
            plan,
            output,
            evaluate,
        };
        Ok(Self {
            source,
            reference,
            pass,
        })
    }

    fn read(numbers: &mut Numbers<'_>) -> Result<Self, Fault> {
        let case = LevelCase::read(numbers)?;
        let source = Filled::read(case, numbers)?;
        let raw = RawPlanes::read(numbers)?;
        let reference = Filled::read(LevelCase { raw, ..case }, numbers)?;
        let plan = PlanCase::read_on(Some(&source.ground()?), numbers)?;
        let (pnew, output) = (numbers.take()?, numbers.flag()?);
        Self::of(source, reference, plan, pnew, output)
    }

    fn numbers(&self) -> Vec<i64> {
        let pnew = self.pass.evaluate.pnew;
        [
            self.source.case.numbers(),
            self.source.fill_numbers(),
            self.reference.case.raw.numbers(),
            self.reference.fill_numbers(),
            self.pass.plan.numbers_on(),
            vec![pnew.into(), self.pass.output.into()],
        ]
        .concat()
    }

    fn answers(&self) -> Vec<i64> {
        let (source, reference) = (self.source.bytes(), self.reference.bytes());
        let source = source.each_ref().map(Vec::as_slice);
        let reference = reference.each_ref().map(Vec::as_slice);
        let source = self.source.case.level(source);
        let reference = self.reference.case.level(reference);
        let planned = inside::plan(&self.pass.plan, &source);
        self.pass
            .answers_from(planned, |case| case.bests_on(&source, &reference))
    }
}

fn read_level_pass(numbers: &mut Numbers<'_>) -> Result<Work, Fault> {
    let case = LevelPassCase::read(numbers)?;
    Ok(Box::new(move || case.answers()))
}

fn random_level_pass(random: &mut Random) -> Result<LevelPassCase, Fault> {
    let (layout, size) = plan_cases::small_layout(random);
    let source = source_frame(random, size);
    let reference = reference_frame(random, &source);
    let ground = source.ground()?;
    let plan = plan_cases::on_planes(random, layout, ground.pel, ground.shift, |_| ground.planes);
    let (pnew, output) = (random_pnew(random) as i32, !random.one_in(4));
    LevelPassCase::of(source, reference, plan, pnew, output)
}

/// A frame that has a level of these sides.
fn source_frame(random: &mut Random, size: (i64, i64)) -> Filled {
    let level = random.pick(&[0, 1, 1, 2, 2, 3]);
    let (width, height) = (grown(random, size.0, level), grown(random, size.1, level));
    let (shift, mut pel) = (random.pick(&SHIFTS), random.pick(&[1, 2, 4]));
    // The subplanes in front of the level are many bytes, and none of them is of it.
    if level > 0 && pel * pel * width * height > 1 << 16 {
        pel = 1;
    }
    let size = (width as i32, height as i32);
    let mut case = LevelCase::bare(size, shift, pel as i32, level as i32, random.flag());
    let fills = [(); 6].map(|()| fill(random));
    lend(random, &mut case);
    Filled { case, fills }
}

fn reference_frame(random: &mut Random, source: &Filled) -> Filled {
    let mut frame = *source;
    frame.case.raw.separate ^= random.one_in(3);
    for at in 0..6 {
        // The same bytes in the same rows are a picture that stands still; at another base it has moved.
        if random.one_in(3) {
            frame.fills[at] = fill(random);
        }
        if random.one_in(3) {
            frame.case.raw.pitches[at] = 0;
        }
    }
    lend(random, &mut frame.case);
    frame
}

/// A side of the frame that comes to this one at the level. There no side is odd: to an odd one one is added.
fn grown(random: &mut Random, side: i64, level: i64) -> i64 {
    if level == 0 {
        return side;
    }
    let even = side + side % 2;
    let first = (1..level).fold(even, |side, _| 2 * side + random.pick(&[0, 2]));
    2 * first + random.between(0, 3)
}

/// Other pitches where they are too narrow, and raw planes that hold the level: it alone, with its subplanes, or with
/// some rows of the next level, which are read where a block leaves it below.
fn lend(random: &mut Random, case: &mut LevelCase) {
    for (at, width) in case.widths().into_iter().enumerate() {
        if case.raw.pitches[at] < width {
            case.raw.pitches[at] = width + random.pick_or(&[0, 0, 1], 0, 12) as i32;
        }
    }
    case.raw.lengths = [(); 6].map(|()| random.below(40) as usize);
    let from = cut_from(case);
    for (at, view) in three(&case.level([&[]; 6])).iter().enumerate() {
        let plane = Plane::of(view);
        let (least, full) = (plane.least_length(), plane.full_length(view.pel()));
        let more = full + plane.pitch * plane.height as usize / 2;
        let [least, full, more] = [least, full, more].map(|length| length as i64);
        let length = random.pick_or(&[least, full, more], least, more);
        case.raw.lengths[from + at] = length as usize;
    }
}
