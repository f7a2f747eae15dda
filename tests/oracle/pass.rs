//! The kind pass: planning, evaluating and finishing one behind the other.

use std::collections::HashSet;

use crate::analyse::field::recalc::inside::{self, Planned};
use crate::evaluate::{Best, EvaluateCase, Planes};
use crate::evaluate_cases;
use crate::finish::{self, FinishCase};
use crate::kinds::Kind;
use crate::lines::{Fault, Numbers, Work};
use crate::plan::{self, PlanCase};
use crate::plan_cases;
use crate::planes::Fill;
use crate::random::Random;

pub(crate) const PASS: Kind = Kind {
    name: "pass",
    read: read_pass,
    random: |random| random_pass(random).numbers(),
    limits: Vec::new,
};

pub(crate) struct PassCase {
    pub(crate) plan: PlanCase,
    pub(crate) output: bool,
    /// What evaluating is asked beside the plan; its records are the plan's.
    pub(crate) evaluate: EvaluateCase,
}

impl PassCase {
    fn read(numbers: &mut Numbers<'_>) -> Result<Self, Fault> {
        let plan = PlanCase::read(numbers)?;
        let (pnew, output) = (numbers.take()?, numbers.flag()?);
        let fills = [
            Fill::read(numbers)?,
            Fill::read(numbers)?,
            Fill::read(numbers)?,
        ];
        let source = Planes {
            planes: plan.planes,
            fills,
        };
        let reference = Planes::read(numbers)?;
        let evaluate = EvaluateCase::of(&plan, pnew, source, reference);
        Ok(Self {
            plan,
            output,
            evaluate,
        })
    }

    fn numbers(&self) -> Vec<i64> {
        let mut line = self.plan.numbers();
        line.extend([i64::from(self.evaluate.pnew), self.output.into()]);
        for fill in &self.evaluate.source.fills {
            line.extend([i64::from(fill.seed), fill.levels.into()]);
        }
        line.extend(self.evaluate.reference.numbers());
        line
    }

    fn answers(&self) -> Vec<i64> {
        self.answers_from(self.plan.plan(), EvaluateCase::bests)
    }

    /// From what was planned, if it was, and what evaluating then answers.
    pub(crate) fn answers_from(
        &self,
        planned: Option<Planned>,
        bests: impl FnOnce(&EvaluateCase) -> Vec<Best>,
    ) -> Vec<i64> {
        let Some(planned) = planned else {
            return vec![plan::REFUSED];
        };
        let mut answers = plan::answers(&planned);
        let mut evaluate = self.evaluate.clone();
        evaluate.records.clone_from(&planned.records);
        let bests = bests(&evaluate);
        answers.extend(bests.as_flattened().iter().map(|&number| i64::from(number)));
        answers.extend(self.finished(&planned, bests));
        answers
    }

    /// The vectors of the grid, of which those that no entry names are as they were, and the output words.
    fn finished(&self, planned: &Planned, bests: Vec<Best>) -> Vec<i64> {
        let named: HashSet<usize> = planned.indices.iter().map(|&at| at as usize).collect();
        let (mut vectors, output) = inside::finish(&FinishCase {
            grid: self.plan.grid,
            diagonal: planned.diagonal,
            output: self.output,
            indices: planned.indices.clone(),
            bests,
        });
        for (at, vector) in vectors.iter_mut().enumerate() {
            if !named.contains(&at) {
                *vector = self.plan.vectors[at];
            }
        }
        finish::in_one_row(&vectors, &output)
    }
}

fn read_pass(numbers: &mut Numbers<'_>) -> Result<Work, Fault> {
    let case = PassCase::read(numbers)?;
    Ok(Box::new(move || case.answers()))
}

fn random_pass(random: &mut Random) -> PassCase {
    let plan = plan_cases::small(random);
    let evaluate = evaluate_cases::around(random, &plan);
    PassCase {
        plan,
        output: !random.one_in(4),
        evaluate,
    }
}
