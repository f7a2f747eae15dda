//! The oracle's command line. README.md says what the oracle is and what its lines hold.

mod analyse {
    pub(crate) mod field;
    pub(crate) mod metric;
    pub(crate) mod params;
    #[path = "../planes_wrapper.rs"]
    pub(crate) mod planes;
}
#[path = "value.rs"]
mod params;

mod absent;
mod block;
mod choose;
mod choose_limits;
mod cost;
mod evaluate;
mod evaluate_cases;
mod evaluate_limits;
mod finish;
mod free_records;
mod kinds;
mod level_cases;
mod level_limits;
mod level_pass;
mod levels;
mod lines;
mod outside;
mod outside_cases;
mod packing;
mod pass;
mod plan;
mod plan_cases;
mod plan_limits;
mod planes;
mod random;
mod score;
mod serpentine;

use std::collections::HashSet;
use std::io::{self, BufRead, BufWriter, ErrorKind, Write};
use std::process::ExitCode;

use kinds::{KINDS, Kind};
use random::Random;

fn main() -> ExitCode {
    lines::hush();
    let words: Vec<String> = std::env::args().skip(1).collect();
    let words: Vec<&str> = words.iter().map(String::as_str).collect();
    match command(&words) {
        Ok(()) => ExitCode::SUCCESS,
        // A reader that has seen enough is no fault.
        Err(fault) if fault.kind() == ErrorKind::BrokenPipe => ExitCode::SUCCESS,
        Err(fault) => {
            eprintln!("oracle: {fault}");
            ExitCode::from(2)
        }
    }
}

fn command(words: &[&str]) -> io::Result<()> {
    let mut out = BufWriter::new(io::stdout().lock());
    match *words {
        ["answer", kind] => answer(known(kind)?, &mut out)?,
        ["make", kind, seed, count] => make(known(kind)?, number(seed)?, number(count)?, &mut out)?,
        ["limits", kind] => limits(known(kind)?, &mut out)?,
        ["outside"] => writeln!(out, "{}", outside::names().join("\n"))?,
        ["outside", name] => match outside::line(name) {
            Some(line) => writeln!(out, "{line}")?,
            None => return Err(fault(format!("no case {name}"))),
        },
        _ => return Err(fault(usage())),
    }
    out.flush()
}

fn answer(kind: &Kind, out: &mut impl Write) -> io::Result<()> {
    for (row, line) in io::stdin().lock().lines().enumerate() {
        let line = line?;
        if line.starts_with('#') || line.trim().is_empty() {
            writeln!(out, "{line}")?;
        } else {
            print(kind, &line, out).map_err(|e| within(e, &format!("line {}", row + 1)))?;
        }
    }
    Ok(())
}

fn make(kind: &Kind, seed: u64, count: u64, out: &mut impl Write) -> io::Result<()> {
    writeln!(out, "# kind {} seed {seed} count {count}", kind.name)?;
    let mut random = Random::new(seed);
    for _ in 0..count {
        print(kind, &lines::joined(&(kind.random)(&mut random)), out)?;
    }
    Ok(())
}

fn limits(kind: &Kind, out: &mut impl Write) -> io::Result<()> {
    let mut cases = (kind.limits)();
    let mut seen = HashSet::new();
    cases.retain(|case| seen.insert(case.clone()));
    writeln!(out, "# kind {} limits count {}", kind.name, cases.len())?;
    for case in cases {
        print(kind, &lines::joined(&case), out)?;
    }
    Ok(())
}

fn print(kind: &Kind, line: &str, out: &mut impl Write) -> io::Result<()> {
    writeln!(out, "{}", lines::answered(kind, line).map_err(fault)?)
}

fn known(name: &str) -> io::Result<&'static Kind> {
    kinds::named(name).ok_or_else(|| fault(usage()))
}

fn number(word: &str) -> io::Result<u64> {
    word.parse().map_err(|_| fault(usage()))
}

fn fault(text: String) -> io::Error {
    io::Error::new(ErrorKind::InvalidInput, text)
}

fn within(fault: io::Error, place: &str) -> io::Error {
    io::Error::new(fault.kind(), format!("{place}: {fault}"))
}

fn usage() -> String {
    let names: Vec<&str> = KINDS.iter().map(|kind| kind.name).collect();
    format!(
        "answer KIND | make KIND SEED COUNT | limits KIND | outside [NAME], with KIND one of {}",
        names.join(" ")
    )
}
