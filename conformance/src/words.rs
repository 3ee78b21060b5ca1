//! Runs in words: those with which the program repeats one, printed and read.

use flow_reference::corpus::{Change, Run};
use flow_reference::generate::secret::OtherStart;
use flow_reference::{hex, Mode};

use crate::pairs::Pair;

/// The words of a run.
pub fn of_run(run: &Run) -> String {
    let mode = match run.mode {
        Mode::Monitored => "monitored",
        Mode::Unmonitored => "unmonitored",
    };
    let [trace, snapshot, work] = run.lengths;
    let order = match run.budget {
        Some(budget) => format!("dispatch {budget}"),
        None => String::from("run"),
    };
    format!("{order} {mode} {trace} {snapshot} {work} {} {}", run.seed, hex::encode(&run.job))
}

/// The words of a pair: the variable, its start in the second job, and the first run.
pub fn of_pair(pair: &Pair) -> String {
    let OtherStart { variable, start } = pair.other;
    format!("secret {variable} {start} {}", of_run(&pair.first))
}

/// Reads the words of a run.
pub fn run(words: &[&str]) -> Option<Run> {
    match words {
        ["run", words @ ..] => with_budget(None, words),
        ["dispatch", budget, words @ ..] => with_budget(Some(budget.parse().ok()?), words),
        _ => None,
    }
}

/// Reads the words of a pair, behind `secret`.
pub fn pair(words: &[&str]) -> Option<Pair> {
    let [variable, start, words @ ..] = words else { return None };
    let other = OtherStart { variable: variable.parse().ok()?, start: start.parse().ok()? };
    Pair::new(run(words)?, other)
}

/// Reads the words of a run, dispatched if there is a budget.
fn with_budget(budget: Option<u64>, words: &[&str]) -> Option<Run> {
    let [mode, trace, snapshot, work, seed, job] = words else { return None };
    let mode = match *mode {
        "monitored" => Mode::Monitored,
        "unmonitored" => Mode::Unmonitored,
        _ => return None,
    };
    let lengths = [trace.parse().ok()?, snapshot.parse().ok()?, work.parse().ok()?];
    let (seed, job) = (seed.parse().ok()?, hex::decode(job)?);
    Some(Run { mode, budget, change: Change::Nothing, seed, lengths, job })
}
