//! Reading the numbers of a line, and writing its answers.

use std::panic::{self, AssertUnwindSafe};
use std::str::SplitAsciiWhitespace;
use std::sync::atomic::{AtomicBool, Ordering};

use crate::kinds::Kind;

/// What is wrong with a line.
pub(crate) type Fault = String;

/// A case that has been read and checked: running it asks the Rust. Only this may end with `stopped`.
pub(crate) type Work = Box<dyn FnOnce() -> Vec<i64>>;

pub(crate) struct Numbers<'a> {
    left: SplitAsciiWhitespace<'a>,
    taken: usize,
}

impl<'a> Numbers<'a> {
    fn new(text: &'a str) -> Self {
        Self {
            left: text.split_ascii_whitespace(),
            taken: 0,
        }
    }

    pub(crate) fn take<T: TryFrom<i64>>(&mut self) -> Result<T, Fault> {
        self.taken += 1;
        let at = self.taken;
        let word = self.left.next().ok_or(format!("number {at} is missing"))?;
        word.parse::<i64>()
            .ok()
            .and_then(|value| T::try_from(value).ok())
            .ok_or(format!("number {at} cannot be {word}"))
    }

    pub(crate) fn take_in(&mut self, low: i64, high: i64) -> Result<i64, Fault> {
        let value = self.take()?;
        if (low..=high).contains(&value) {
            return Ok(value);
        }
        Err(format!(
            "number {} is {value}, not from {low} to {high}",
            self.taken
        ))
    }

    pub(crate) fn flag(&mut self) -> Result<bool, Fault> {
        Ok(self.take_in(0, 1)? == 1)
    }

    pub(crate) fn two<T: TryFrom<i64>>(&mut self) -> Result<(T, T), Fault> {
        Ok((self.take()?, self.take()?))
    }

    pub(crate) fn many<T: TryFrom<i64>>(&mut self, count: usize) -> Result<Vec<T>, Fault> {
        (0..count).map(|_| self.take()).collect()
    }

    fn end(&mut self) -> Result<(), Fault> {
        match self.left.next() {
            None => Ok(()),
            Some(word) => Err(format!("{word} is left over")),
        }
    }
}

pub(crate) fn joined(numbers: &[i64]) -> String {
    let words: Vec<String> = numbers.iter().map(i64::to_string).collect();
    words.join(" ")
}

/// The line with its answers; what it had to the right of `=` is not looked at.
pub(crate) fn answered(kind: &Kind, line: &str) -> Result<String, Fault> {
    let inputs = line.split('=').next().unwrap_or_default().trim();
    let mut numbers = Numbers::new(inputs);
    let work = (kind.read)(&mut numbers)?;
    numbers.end()?;
    let answers = watched(work).map_or("stopped".into(), |answers| joined(&answers));
    Ok(format!("{inputs} = {answers}").trim_end().into())
}

static RUNNING: AtomicBool = AtomicBool::new(false);

/// What the Rust answers, or nothing where it stops.
pub(crate) fn watched<T>(work: impl FnOnce() -> T) -> Option<T> {
    RUNNING.store(true, Ordering::Relaxed);
    let answers = panic::catch_unwind(AssertUnwindSafe(work)).ok();
    RUNNING.store(false, Ordering::Relaxed);
    answers
}

/// The Rust's stops are answers, so they are not reported; the harness's own still are.
pub(crate) fn hush() {
    let loud = panic::take_hook();
    panic::set_hook(Box::new(move |info| {
        if !RUNNING.load(Ordering::Relaxed) {
            loud(info);
        }
    }));
}
