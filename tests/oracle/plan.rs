//! The kind plan: its line, and its answer.

use crate::analyse::field::recalc::inside::{self, Planned};
use crate::kinds::Kind;
use crate::lines::{Fault, Numbers, Work};
use crate::planes::{Plane, frame};
use crate::{plan_cases, plan_limits};

pub(crate) const PLAN: Kind = Kind {
    name: "plan",
    read: read_plan,
    random: |random| plan_cases::any(random).numbers(),
    limits: || plan_limits::cases().iter().map(PlanCase::numbers).collect(),
};

/// The Rust says only that it refuses, not why.
pub(crate) const REFUSED: i64 = -1;

/// What a plan stands on. The line of `plan` says it; that of planes cut from a super frame leaves it to the level.
pub(crate) struct Ground {
    pub(crate) pel: i32,
    pub(crate) shift: (u32, u32),
    pub(crate) planes: [Plane; 3],
}

#[derive(Clone)]
pub(crate) struct PlanCase {
    pub(crate) exhaustive: bool,
    pub(crate) search_param: i32,
    pub(crate) lambda: i32,
    pub(crate) bad_sad: i32,
    pub(crate) satd: bool,
    pub(crate) block: (i32, i32),
    pub(crate) grid: (i32, i32),
    pub(crate) step: (i32, i32),
    pub(crate) pel: i32,
    pub(crate) smallest: bool,
    pub(crate) need_luma: bool,
    pub(crate) shift: (u32, u32),
    pub(crate) planes: [Plane; 3],
    pub(crate) order: Vec<(i16, i16)>,
    pub(crate) vectors: Vec<(i16, i16, i32)>,
}

impl PlanCase {
    pub(crate) fn read(numbers: &mut Numbers<'_>) -> Result<Self, Fault> {
        Self::read_on(None, numbers)
    }

    /// From a line that has no ground where one is given.
    pub(crate) fn read_on(
        ground: Option<&Ground>,
        numbers: &mut Numbers<'_>,
    ) -> Result<Self, Fault> {
        Ok(Self {
            exhaustive: numbers.flag()?,
            search_param: numbers.take()?,
            lambda: numbers.take()?,
            bad_sad: numbers.take()?,
            satd: numbers.flag()?,
            block: numbers.two()?,
            grid: numbers.two()?,
            step: numbers.two()?,
            pel: ground.map_or_else(|| numbers.take(), |ground| Ok(ground.pel))?,
            smallest: numbers.flag()?,
            need_luma: numbers.flag()?,
            shift: ground.map_or_else(|| numbers.two(), |ground| Ok(ground.shift))?,
            planes: ground.map_or_else(|| read_planes(numbers), |ground| Ok(ground.planes))?,
            order: read_order(numbers)?,
            vectors: read_vectors(numbers)?,
        })
    }

    pub(crate) fn numbers(&self) -> Vec<i64> {
        let shift = [self.shift.0, self.shift.1].map(i64::from);
        let planes: Vec<i64> = self.planes.iter().flat_map(Plane::numbers).collect();
        let ground = [&shift[..], &planes].concat();
        let pel = vec![self.pel.into()];
        [self.search(), pel, self.flags(), ground, self.blocks()].concat()
    }

    /// The line that leaves the ground out.
    pub(crate) fn numbers_on(&self) -> Vec<i64> {
        [self.search(), self.flags(), self.blocks()].concat()
    }

    fn search(&self) -> Vec<i64> {
        let mut line = vec![
            self.exhaustive.into(),
            self.search_param.into(),
            self.lambda.into(),
            self.bad_sad.into(),
            self.satd.into(),
        ];
        for (x, y) in [self.block, self.grid, self.step] {
            line.extend([i64::from(x), y.into()]);
        }
        line
    }

    fn flags(&self) -> Vec<i64> {
        vec![self.smallest.into(), self.need_luma.into()]
    }

    fn blocks(&self) -> Vec<i64> {
        let mut line = vec![self.order.len() as i64];
        line.extend(self.order.iter().flat_map(|&(x, y)| [x, y].map(i64::from)));
        line.push(self.vectors.len() as i64);
        for &(x, y, sad) in &self.vectors {
            line.extend([i64::from(x), y.into(), sad.into()]);
        }
        line
    }

    /// Planning reads no byte, so one stretch of untouched zeros serves as all three planes, however long they are.
    pub(crate) fn plan(&self) -> Option<Planned> {
        let longest = self.planes.iter().map(|plane| plane.length).max();
        let zeros = vec![0; longest.unwrap_or(0)];
        let data = [0, 1, 2].map(|at: usize| &zeros[..self.planes[at].length]);
        inside::plan(self, &frame(&self.planes, data, self.pel))
    }
}

fn read_planes(numbers: &mut Numbers<'_>) -> Result<[Plane; 3], Fault> {
    Ok([
        Plane::read(numbers)?,
        Plane::read(numbers)?,
        Plane::read(numbers)?,
    ])
}

fn read_order(numbers: &mut Numbers<'_>) -> Result<Vec<(i16, i16)>, Fault> {
    let count: usize = numbers.take()?;
    (0..count).map(|_| numbers.two()).collect()
}

fn read_vectors(numbers: &mut Numbers<'_>) -> Result<Vec<(i16, i16, i32)>, Fault> {
    let count: usize = numbers.take()?;
    let mut vector = || Ok((numbers.take()?, numbers.take()?, numbers.take()?));
    (0..count).map(|_| vector()).collect()
}

fn read_plan(numbers: &mut Numbers<'_>) -> Result<Work, Fault> {
    let case = PlanCase::read(numbers)?;
    Ok(Box::new(move || match case.plan() {
        None => vec![REFUSED],
        Some(planned) => answers(&planned),
    }))
}

pub(crate) fn answers(planned: &Planned) -> Vec<i64> {
    let count = planned.indices.len() as i64;
    let mut answers = vec![0, planned.slots as i64, planned.diagonal.into(), count];
    answers.extend(planned.records.iter().map(|&word| i64::from(word)));
    answers.extend(planned.indices.iter().map(|&index| i64::from(index)));
    answers
}
