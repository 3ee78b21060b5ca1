//! Reruns a job file through the proved static libraries, monitored and unmonitored, counts the messages of each node and
//! says where the two part. With a budget both runs are dispatched.

use std::ffi::OsString;
use std::process::ExitCode;

use leqsumir::{COUNTS, ENTRY_BYTES, NODE_COUNTS, SNAPSHOT_BYTES, TRACE_BYTES, WORK_BYTES};

/// What a run hands over: the numbers of the answer, eight with written turns and nine dispatched, the entries made, and of
/// each node the counts started, received, taken and waiting. Of a refused job there are no entries and no counts.
struct Rerun {
    answer: Vec<u64>,
    entries: Vec<[u8; ENTRY_BYTES]>,
    tallies: Vec<[u64; NODE_COUNTS]>,
}

fn rerun(job: &[u8], budget: Option<u64>, is_monitored: bool) -> Rerun {
    let (mut trace, mut snapshot, mut work) = ([0; TRACE_BYTES], [0; SNAPSHOT_BYTES], [0; WORK_BYTES]);
    let (t, s, w) = (&mut trace, &mut snapshot, &mut work);
    let answer = match (budget, is_monitored) {
        (None, true) => leqsumir::run_monitored(job, t, s, w).to_vec(),
        (None, false) => leqsumir::run_unmonitored(job, t, s, w).to_vec(),
        (Some(budget), true) => leqsumir::dispatch_monitored(job, budget, t, s, w).to_vec(),
        (Some(budget), false) => leqsumir::dispatch_unmonitored(job, budget, t, s, w).to_vec(),
    };
    let entries = trace.chunks_exact(ENTRY_BYTES).take(answer[3] as usize);
    let entries = entries.map(|bytes| bytes.try_into().expect("7 bytes")).collect();
    let tallies = if answer[0] == 0 { tallies(job, answer[3], &trace, &snapshot) } else { Vec::new() };
    Rerun { answer, entries, tallies }
}

/// The counts of each node of a job that ran.
fn tallies(job: &[u8], turns: u64, trace: &[u8], snapshot: &[u8]) -> Vec<[u64; NODE_COUNTS]> {
    let mut counts = [0; COUNTS];
    let [_, _, nodes] = leqsumir::tally(job, turns, trace, snapshot, &mut counts);
    let own = counts.chunks_exact(NODE_COUNTS).take(nodes as usize);
    own.map(|counts| counts.try_into().expect("four counts")).collect()
}

/// An entry as the printing program prints it: node, kind, number, value.
fn shown([node, kind, number, value @ ..]: [u8; ENTRY_BYTES]) -> String {
    format!("{node} {kind} {number} {}", u32::from_le_bytes(value))
}

fn print_answer(name: &str, answer: &[u64]) {
    match answer {
        [0, _, stop, turns, node, kind, number, value, rest @ ..] => {
            print!("{name}: stop {stop}, turns {turns}, attempted {node} {kind} {number} {value}");
            if let [examined] = rest {
                print!(", examined {examined}");
            }
            println!();
        }
        [refusal, place, ..] => println!("{name}: refused {refusal} {place}"),
        _ => unreachable!("at least eight numbers"),
    }
}

fn print_tallies(name: &str, tallies: &[[u64; NODE_COUNTS]]) {
    for (node, [started, received, taken, waiting]) in tallies.iter().enumerate() {
        println!("{name}: tally {node} {started} {received} {taken} {waiting}");
    }
}

/// The first turn at which one run made an entry that the other did not make.
fn print_parting(monitored: &Rerun, unmonitored: &Rerun) {
    let alike = monitored.entries.iter().zip(&unmonitored.entries).take_while(|(a, b)| a == b).count();
    match unmonitored.entries.get(alike) {
        Some(entry) => {
            println!("they part at turn {alike}: unmonitored, the entry {} is made", shown(*entry))
        }
        None => println!("they do not part"),
    }
}

/// A number of decimal digits and nothing else.
fn digits(word: &str) -> Option<u64> {
    word.bytes().all(|c| c.is_ascii_digit()).then(|| word.parse().ok())?
}

/// The file's name and the budget, if there is one.
fn arguments() -> Option<(OsString, Option<u64>)> {
    let mut words = std::env::args_os().skip(1);
    let file = words.next()?;
    let budget = match words.next() {
        Some(word) => Some(digits(word.to_str()?)?),
        None => None,
    };
    words.next().is_none().then_some((file, budget))
}

fn main() -> ExitCode {
    let Some((file, budget)) = arguments() else {
        eprintln!("usage: rerun JOB [BUDGET]");
        return ExitCode::from(2);
    };
    let Ok(job) = std::fs::read(&file) else {
        eprintln!("rerun: cannot read {}", file.display());
        return ExitCode::FAILURE;
    };
    let [monitored, unmonitored] = [true, false].map(|is_monitored| rerun(&job, budget, is_monitored));
    print_answer("monitored", &monitored.answer);
    print_answer("unmonitored", &unmonitored.answer);
    print_tallies("monitored", &monitored.tallies);
    print_tallies("unmonitored", &unmonitored.tallies);
    print_parting(&monitored, &unmonitored);
    ExitCode::SUCCESS
}
