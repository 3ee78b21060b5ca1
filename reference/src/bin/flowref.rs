//! The printing program: a job on standard input, monitored; with the last argument `bare`, unmonitored; with the
//! arguments `dispatch` and a budget before it, dispatched.

use std::io::{self, Read, Write};
use std::process::ExitCode;

use flow_reference::table::MAX_JOB_BYTES;
use flow_reference::{print, Mode};

/// The budget of a dispatched run, none for written turns, and the mode.
type Asked = (Option<u64>, Mode);

/// What the arguments ask for.
fn asked() -> Option<Asked> {
    let arguments: Vec<_> = std::env::args_os().skip(1).collect();
    let words: Vec<&str> = arguments.iter().map(|word| word.to_str()).collect::<Option<_>>()?;
    match words.as_slice() {
        ["dispatch", budget, rest @ ..] => Some((Some(number(budget)?), mode(rest)?)),
        words => Some((None, mode(words)?)),
    }
}

fn mode(words: &[&str]) -> Option<Mode> {
    match words {
        [] => Some(Mode::Monitored),
        ["bare"] => Some(Mode::Unmonitored),
        _ => None,
    }
}

/// A number of 1 to 9 decimal digits and nothing else.
fn number(word: &str) -> Option<u64> {
    let is_number = (1..=9).contains(&word.len()) && word.bytes().all(|byte| byte.is_ascii_digit());
    is_number.then(|| word.parse().ok())?
}

fn print_job((budget, mode): Asked) -> io::Result<()> {
    let mut job = Vec::new();
    // One byte past the longest job is enough to refuse it.
    io::stdin().lock().take(MAX_JOB_BYTES as u64 + 1).read_to_end(&mut job)?;
    let mut out = io::stdout().lock();
    out.write_all(print::print_run(&job, budget, mode).as_bytes())?;
    out.flush()
}

fn main() -> ExitCode {
    let Some(asked) = asked() else {
        eprintln!("usage: flowref [dispatch BUDGET] [bare]");
        return ExitCode::from(2);
    };
    match print_job(asked) {
        Ok(()) => ExitCode::SUCCESS,
        Err(error) => {
            eprintln!("flowref: {error}");
            ExitCode::FAILURE
        }
    }
}
