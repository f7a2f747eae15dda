//! The kind evaluate: its line, and its answer.

use crate::absent;
use crate::analyse::field::recalc::{RECORD, inside};
use crate::analyse::planes::LevelFrame;
use crate::kinds::Kind;
use crate::lines::{Fault, Numbers, Work};
use crate::plan::PlanCase;
use crate::planes::{Fill, Plane, frame};
use crate::{choose, evaluate_cases, evaluate_limits};

pub(crate) const EVALUATE: Kind = Kind {
    name: "evaluate",
    read: read_evaluate,
    random: |random| evaluate_cases::any(random).numbers(),
    limits: || {
        evaluate_limits::cases()
            .iter()
            .map(EvaluateCase::numbers)
            .collect()
    },
};

/// x, y, SAD and average, which the Rust answers, and how many reference samples lie outside the data.
pub(crate) type Best = [i32; 5];

/// Three planes and how their bytes are made.
#[derive(Clone)]
pub(crate) struct Planes {
    pub(crate) planes: [Plane; 3],
    pub(crate) fills: [Fill; 3],
}

impl Planes {
    pub(crate) fn read(numbers: &mut Numbers<'_>) -> Result<Self, Fault> {
        let mut one = || Ok::<_, Fault>((Plane::read(numbers)?, Fill::read(numbers)?));
        let three = [one()?, one()?, one()?];
        Ok(Self {
            planes: three.map(|(plane, _)| plane),
            fills: three.map(|(_, fill)| fill),
        })
    }

    pub(crate) fn numbers(&self) -> Vec<i64> {
        let mut line = Vec::new();
        for (plane, fill) in self.planes.iter().zip(&self.fills) {
            line.extend(plane.numbers());
            line.extend([i64::from(fill.seed), fill.levels.into()]);
        }
        line
    }

    fn bytes(&self) -> [Vec<u8>; 3] {
        [0, 1, 2].map(|at: usize| self.fills[at].bytes(self.planes[at].length))
    }
}

#[derive(Clone)]
pub(crate) struct EvaluateCase {
    pub(crate) satd: bool,
    pub(crate) pel: i32,
    pub(crate) shift: (u32, u32),
    pub(crate) block: (usize, usize),
    pub(crate) search_param: i64,
    pub(crate) pnew: i32,
    pub(crate) source: Planes,
    pub(crate) reference: Planes,
    pub(crate) records: Vec<i32>,
}

impl EvaluateCase {
    fn read(numbers: &mut Numbers<'_>) -> Result<Self, Fault> {
        Ok(Self {
            satd: numbers.flag()?,
            pel: numbers.take()?,
            shift: (numbers.take_in(0, 1)? as u32, numbers.take_in(0, 1)? as u32),
            block: numbers.two()?,
            search_param: numbers.take_in(-3, 3)?,
            pnew: numbers.take()?,
            source: Planes::read(numbers)?,
            reference: Planes::read(numbers)?,
            records: read_records(numbers)?,
        })
    }

    /// What evaluating is asked with the plan's settings, and no records yet.
    pub(crate) fn of(plan: &PlanCase, pnew: i32, source: Planes, reference: Planes) -> Self {
        Self {
            satd: plan.satd,
            pel: plan.pel,
            shift: plan.shift,
            block: (plan.block.0 as usize, plan.block.1 as usize),
            search_param: plan.search_param.into(),
            pnew,
            source,
            reference,
            records: Vec::new(),
        }
    }

    pub(crate) fn numbers(&self) -> Vec<i64> {
        let mut line = vec![self.satd.into(), self.pel.into()];
        line.extend([i64::from(self.shift.0), self.shift.1.into()]);
        line.extend([self.block.0 as i64, self.block.1 as i64]);
        line.extend([self.search_param, self.pnew.into()]);
        line.extend(self.source.numbers());
        line.extend(self.reference.numbers());
        line.push((self.records.len() / RECORD) as i64);
        line.extend(self.records.iter().map(|&word| i64::from(word)));
        line
    }

    pub(crate) fn slots(&self) -> usize {
        choose::slots(self.search_param.abs())
    }

    pub(crate) fn bests(&self) -> Vec<Best> {
        let (source, reference) = (self.source.bytes(), self.reference.bytes());
        let source = frame(
            &self.source.planes,
            source.each_ref().map(Vec::as_slice),
            self.pel,
        );
        let reference = frame(
            &self.reference.planes,
            reference.each_ref().map(Vec::as_slice),
            self.pel,
        );
        self.bests_on(&source, &reference)
    }

    /// On frames that are there: not the case's own, where these were cut from a super frame.
    pub(crate) fn bests_on(
        &self,
        source: &LevelFrame<'_>,
        reference: &LevelFrame<'_>,
    ) -> Vec<Best> {
        let bests = inside::evaluate(self, source, reference);
        absent::counted(self, reference, &bests)
    }
}

fn read_records(numbers: &mut Numbers<'_>) -> Result<Vec<i32>, Fault> {
    let count: usize = numbers.take()?;
    let records: Vec<Vec<i32>> = (0..count)
        .map(|_| numbers.many(RECORD))
        .collect::<Result<_, _>>()?;
    Ok(records.concat())
}

fn read_evaluate(numbers: &mut Numbers<'_>) -> Result<Work, Fault> {
    let case = EvaluateCase::read(numbers)?;
    Ok(Box::new(move || {
        case.bests()
            .as_flattened()
            .iter()
            .map(|&number| i64::from(number))
            .collect()
    }))
}
