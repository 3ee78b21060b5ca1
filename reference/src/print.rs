//! The printing program's text, made from the bytes that a run hands over. Writing into a string never fails, so these
//! results are dropped.

use std::fmt::Write;

use crate::decode::decode;
use crate::dispatch::run_or_dispatch;
use crate::outcome::{Answer, Entry, Mode, Outcome, Refusal};
use crate::output::{entry_from_bytes, waiting_counts, ENTRY_BYTES, SNAPSHOT_BYTES, WORK_BYTES};
use crate::program::Program;
use crate::table::MAX_TURNS;
use crate::tally::{tallies, Tally};

/// Runs a job with its written turns and gives the text to print.
pub fn print(job: &[u8], mode: Mode) -> String {
    print_run(job, None, mode)
}

/// Runs a job by the dispatcher and gives the text to print.
pub fn print_dispatched(job: &[u8], budget: u64, mode: Mode) -> String {
    print_run(job, Some(budget), mode)
}

/// Runs a job, dispatched if there is a budget, with buffers of its own that are long enough for every job.
pub fn print_run(job: &[u8], budget: Option<u64>, mode: Mode) -> String {
    let mut trace = vec![0; ENTRY_BYTES * MAX_TURNS];
    let mut snapshot = vec![0; SNAPSHOT_BYTES];
    let mut work = vec![0; WORK_BYTES];
    let outcome = run_or_dispatch(job, budget, mode, &mut trace, &mut snapshot, &mut work);
    text(job, &outcome, &trace, &snapshot)
}

/// The text for a run of a job that handed over this outcome and these bytes.
pub fn text(job: &[u8], outcome: &Outcome, trace: &[u8], snapshot: &[u8]) -> String {
    let answer = match outcome {
        Outcome::Refused(Refusal { number, place }) => return format!("refused {number} {place}\n"),
        Outcome::Ran(answer) => answer,
    };
    let mut text = String::new();
    let entries = || trace.chunks_exact(ENTRY_BYTES).take(answer.turns).map(entry_from_bytes);
    entries().for_each(|entry| push_entry(&mut text, &entry));
    push_answer(&mut text, answer);
    let program = decode(job).expect("the job was accepted");
    push_snapshot(&mut text, &program, snapshot);
    push_tallies(&mut text, &tallies(&program, entries(), waiting_counts(snapshot)));
    if let Some(examined) = answer.examined {
        let _ = writeln!(text, "examined {examined}");
    }
    text
}

fn push_entry(text: &mut String, entry: &Entry) {
    let Entry { node, kind, number, value } = entry;
    let _ = writeln!(text, "{node} {kind} {number} {value}");
}

fn push_answer(text: &mut String, answer: &Answer) {
    let _ = write!(text, "end {} {} ", answer.stop, answer.turns);
    push_entry(text, &answer.attempted);
}

fn push_tallies(text: &mut String, tallies: &[Tally]) {
    for (node, tally) in tallies.iter().enumerate() {
        let [started, received, taken, waiting] = tally.numbers();
        let _ = writeln!(text, "tally {node} {started} {received} {taken} {waiting}");
    }
}

/// Reads bytes one after another.
struct Reader<'a>(&'a [u8]);

impl Reader<'_> {
    fn byte(&mut self) -> u8 {
        let byte = self.0[0];
        self.0 = &self.0[1..];
        byte
    }

    fn number(&mut self) -> u32 {
        u32::from_le_bytes([self.byte(), self.byte(), self.byte(), self.byte()])
    }
}

fn push_snapshot(text: &mut String, program: &Program, snapshot: &[u8]) {
    let mut reader = Reader(snapshot);
    for node in 0..program.nodes.len() {
        let (position, accumulator, message) = (reader.byte(), reader.number(), reader.number());
        let waiting = reader.byte();
        let _ = write!(text, "node {node} {position} {accumulator} {message} {waiting}");
        for _ in 0..waiting {
            let (value, sender) = (reader.number(), reader.byte());
            let _ = write!(text, " {value} {sender}");
        }
        text.push('\n');
    }
    for variable in 0..program.variables.len() {
        let _ = writeln!(text, "var {variable} {}", reader.number());
    }
}
