//! Compares the proved run with the second implementation, or runs of two jobs that differ in the start of a variable
//! nobody may read: fresh ones, or one again.

mod alike;
mod both;
mod compare;
mod draw;
mod guarded;
mod late;
mod library;
mod pairs;
mod random;
mod reference;
mod secret;
mod tallies;
mod totals;
mod trial;
mod words;

use std::fmt::Display;
use std::process::ExitCode;

use crate::both::Both;

const USAGE: &str = "usage: conformance random COUNT SEED | conformance run MODE TRACE SNAPSHOT WORK SEED JOB
    | conformance dispatch BUDGET MODE TRACE SNAPSHOT WORK SEED JOB
    | conformance secret COUNT SEED | conformance secret VARIABLE START run .. | conformance secret VARIABLE START dispatch ..
MODE: monitored or unmonitored; TRACE SNAPSHOT WORK: lengths of the buffers; JOB: hexadecimal, - if empty;
VARIABLE START: of a pair, the variable's number and its start in the second job, and then the words of the first run";

/// What is printed of counts, and how many runs differ.
type Said = (String, u64);

fn said<T: Display>(both: Both<T>) -> Said {
    (both.to_string(), both.differences())
}

/// Does what the words ask for; none if they ask for nothing.
fn execute(words: &[&str]) -> Option<Said> {
    match words {
        ["random", count, seed] => Some(said(random::fresh(count.parse().ok()?, seed.parse().ok()?))),
        ["secret", count, seed] => Some(said(secret::fresh(count.parse().ok()?, seed.parse().ok()?))),
        ["secret", words @ ..] => Some(said(secret::one(&words::pair(words)?))),
        words => Some(said(random::one(&words::run(words)?))),
    }
}

fn main() -> ExitCode {
    let words: Vec<String> = std::env::args().skip(1).collect();
    let words: Vec<&str> = words.iter().map(String::as_str).collect();
    let Some((counts, differences)) = execute(&words) else {
        eprintln!("{USAGE}");
        return ExitCode::from(2);
    };
    println!("{counts}");
    ExitCode::from(u8::from(differences > 0))
}
