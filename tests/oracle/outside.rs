//! What the Rust does outside the port's limits. A case has the name that docs/DIFFERENCES.md gives it, and is made in
//! outside_cases.rs alone: its line says all its inputs, and the program `differences` in C reads them from there.

use crate::analyse::field::recalc::inside::{self, Finished};
use crate::analyse::planes::{LevelFrame, PlaneView};
use crate::evaluate::EvaluateCase;
use crate::finish::FinishCase;
use crate::levels::LevelCase;
use crate::lines::{joined, watched};
use crate::outside_cases;
use crate::plan::PlanCase;
use crate::planes::{Fill, Plane};

/// A plane with a pel of its own.
#[derive(Clone, Copy)]
pub(crate) struct Own {
    pub(crate) plane: Plane,
    pub(crate) pel: i32,
    pub(crate) fill: Fill,
}

pub(crate) enum Case {
    Record([i32; 18]),
    Position([i32; 4]),
    Block([i32; 3]),
    Order(i32, i32),
    Score([i32; 5]),
    Cost(bool, (usize, usize), usize),
    Level(LevelCase),
    Plan(PlanCase, [Own; 3]),
    /// The records may be no whole ones.
    Evaluate(EvaluateCase, [Own; 6]),
    /// With how many vectors and output words.
    Finish(FinishCase, usize, usize),
}

/// `KIND inputs = what the Rust does`, of the case with that name.
pub(crate) fn line(name: &str) -> Option<String> {
    let (_, case) = outside_cases::all()
        .into_iter()
        .find(|case| case.0 == name)?;
    let (kind, numbers) = inputs(&case);
    Some(format!("{kind} {} = {}", joined(&numbers), done(&case)))
}

pub(crate) fn names() -> Vec<&'static str> {
    outside_cases::all().iter().map(|case| case.0).collect()
}

fn wide(numbers: &[i32]) -> Vec<i64> {
    numbers.iter().map(|&number| number.into()).collect()
}

fn inputs(case: &Case) -> (&'static str, Vec<i64>) {
    match case {
        Case::Record(values) => ("record", wide(values)),
        Case::Position(numbers) => ("position", wide(numbers)),
        Case::Block(numbers) => ("block", wide(numbers)),
        Case::Order(nx, ny) => ("order", wide(&[*nx, *ny])),
        Case::Score(numbers) => ("score", wide(numbers)),
        Case::Cost(satd, (width, height), pitch) => (
            "cost",
            vec![(*satd).into(), *width as i64, *height as i64, *pitch as i64],
        ),
        Case::Level(case) => ("level", case.numbers()),
        Case::Plan(case, planes) => ("plan", plan_inputs(case, planes)),
        Case::Evaluate(case, planes) => ("evaluate", evaluate_inputs(case, planes)),
        Case::Finish(case, vectors, words) => ("finish", finish_inputs(case, *vectors, *words)),
    }
}

fn own_numbers(planes: &[Own]) -> impl Iterator<Item = i64> {
    planes.iter().flat_map(|own| {
        let [base, pitch, width, height, length] = own.plane.numbers();
        let (seed, levels) = (own.fill.seed.into(), own.fill.levels.into());
        [
            base,
            pitch,
            width,
            height,
            own.pel.into(),
            length,
            seed,
            levels,
        ]
    })
}

fn plan_inputs(case: &PlanCase, planes: &[Own; 3]) -> Vec<i64> {
    let (search, lambda) = (case.search_param, case.lambda);
    let mut line = vec![search.into(), lambda.into(), i64::from(case.bad_sad)];
    for (x, y) in [case.block, case.grid, case.step] {
        line.extend(wide(&[x, y]));
    }
    line.extend([i64::from(case.pel), case.smallest.into()]);
    line.extend([case.shift.0, case.shift.1].map(i64::from));
    line.extend(own_numbers(planes));
    line.push(case.order.len() as i64);
    line.extend(case.order.iter().flat_map(|&(x, y)| [x, y].map(i64::from)));
    line.push(case.vectors.len() as i64);
    let vectors = case.vectors.iter();
    line.extend(vectors.flat_map(|&(x, y, sad)| [x.into(), y.into(), i64::from(sad)]));
    line
}

fn evaluate_inputs(case: &EvaluateCase, planes: &[Own; 6]) -> Vec<i64> {
    let mut line = vec![case.block.0 as i64, case.block.1 as i64];
    line.extend([case.shift.0, case.shift.1].map(i64::from));
    line.extend([case.search_param, case.pel.into()]);
    line.extend(own_numbers(planes));
    line.push(case.records.len() as i64);
    line.extend(wide(&case.records));
    line
}

fn finish_inputs(case: &FinishCase, vectors: usize, words: usize) -> Vec<i64> {
    let mut line = wide(&[case.grid.0, case.grid.1, case.diagonal]);
    line.extend([case.output.into(), vectors as i64, words as i64]);
    line.push(case.indices.len() as i64);
    line.extend(case.indices.iter().map(|&index| i64::from(index)));
    line.push(case.bests.len() as i64);
    line.extend(wide(case.bests.as_flattened()));
    line
}

fn done(case: &Case) -> String {
    if let Case::Finish(case, vectors, words) = case {
        return finished(case, *vectors, *words);
    }
    watched(|| match case {
        Case::Record(values) => recorded(values),
        Case::Position([nx, ny, bx, by]) => {
            format!(
                "answers {}",
                inside::serpentine_position(*nx, *ny, *bx, *by)
            )
        }
        Case::Block([nx, ny, position]) => {
            let (bx, by) = inside::serpentine_block(*nx, *ny, *position);
            format!("answers {bx} {by}")
        }
        Case::Order(nx, ny) => ordered(&inside::serpentine_order(*nx, *ny)),
        Case::Score([x, y, sad, diagonal, average]) => {
            format!(
                "answers {}",
                inside::score(*x, *y, *sad, *diagonal, *average)
            )
        }
        Case::Cost(satd, size, pitch) => costed(*satd, *size, *pitch),
        Case::Level(case) => format!("answers {}", joined(&case.unrefused())),
        Case::Plan(case, planes) => planned(case, planes),
        Case::Evaluate(case, planes) => evaluated(case, planes),
        Case::Finish(..) => unreachable!(),
    })
    .unwrap_or("stops".into())
}

fn recorded(values: &[i32; 18]) -> String {
    let Some(words) = inside::record(values) else {
        return "refuses".into();
    };
    let [.., lambda, flags] = inside::unrecord(&words);
    format!("packs, and reads back lambda {lambda}, flags {flags}")
}

/// Its first blocks say enough.
fn ordered(order: &[(i16, i16)]) -> String {
    let first: Vec<i64> = order
        .iter()
        .take(3)
        .flat_map(|&(x, y)| [x.into(), y.into()])
        .collect();
    format!("answers {} blocks: {}", order.len(), joined(&first))
}

/// Block a is 0, 1, 2 and so on, block b is all 0.
fn costed(satd: bool, size: (usize, usize), pitch: usize) -> String {
    let length = (size.1 - 1) * pitch + size.0;
    let a: Vec<u8> = (0..length).map(|i| i as u8).collect();
    format!(
        "answers {}",
        inside::block_cost(satd, size, pitch, &a, &vec![0; length])
    )
}

fn view<'a>(own: &Own, data: &'a [u8]) -> PlaneView<'a> {
    own.plane.view(data, own.pel)
}

fn planned(case: &PlanCase, planes: &[Own; 3]) -> String {
    let data = planes.map(|own| own.fill.bytes(own.plane.length));
    let [y, u, v] = [0, 1, 2].map(|at: usize| view(&planes[at], &data[at]));
    let (done, plan) = inside::plan_as_left(case, &LevelFrame { y, u, v });
    let (records, indices) = (plan.records.len() / 12, plan.indices.len());
    if !done {
        return format!("refuses, and leaves {records} records, {indices} indices");
    }
    let (slots, diagonal) = (plan.slots, plan.diagonal);
    let mut text = format!("plans {records} records, slots {slots}, diagonal {diagonal}");
    if let Some(index) = plan.indices.first() {
        text += &format!(", first index {index}");
    }
    if let Some(bad) = plan.records.get(..12).filter(|words| words[11] & 1 == 1) {
        text += &format!(", first record {}", joined(&wide(bad)));
    }
    text
}

fn evaluated(case: &EvaluateCase, planes: &[Own; 6]) -> String {
    let data = planes.map(|own| own.fill.bytes(own.plane.length));
    let [y, u, v, y2, u2, v2] = [0, 1, 2, 3, 4, 5].map(|at: usize| view(&planes[at], &data[at]));
    let (source, reference) = (
        LevelFrame { y, u, v },
        LevelFrame {
            y: y2,
            u: u2,
            v: v2,
        },
    );
    let bests = inside::evaluate(case, &source, &reference);
    let bests: Vec<String> = bests.iter().map(|best| joined(&wide(best))).collect();
    format!("evaluates {}", bests.join("; "))
}

/// Also what a stop leaves: the vectors and words that are no longer 0.
fn finished(case: &FinishCase, vectors: usize, words: usize) -> String {
    let mut finished = Finished::new(case.grid, vectors, words);
    let done = watched(|| finished.finish(case)).is_some();
    let mut stored = String::new();
    for (index, (x, y, sad)) in finished.vectors().into_iter().enumerate() {
        if (x, y, sad) != (0, 0, 0) {
            stored += &format!(" vector {index}: {x} {y} {sad}");
        }
    }
    for (at, &word) in finished
        .words
        .iter()
        .enumerate()
        .filter(|word| *word.1 != 0)
    {
        stored += &format!(" word {at}: {}", word as i32);
    }
    let stored = if stored.is_empty() {
        " nothing"
    } else {
        &stored
    };
    let how = if done {
        "stores"
    } else {
        "stops, having stored"
    };
    format!("{how}{stored}")
}
