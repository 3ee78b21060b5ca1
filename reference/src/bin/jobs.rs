//! Writes generated cases, one line each:
//!
//! ```text
//! jobs SEED COUNT [--max-bytes N] [--kind valid|damaged|mixed]
//!
//! MODE TRACE SNAPSHOT WORK JOB -> refused NUMBER PLACE
//! MODE TRACE SNAPSHOT WORK JOB -> ran STOP TURNS NODE KIND NUMBER VALUE TRACE_BYTES SNAPSHOT_BYTES
//! ```
//!
//! MODE is `monitored` or `unmonitored`; TRACE, SNAPSHOT and WORK are buffer lengths; JOB, TRACE_BYTES
//! (7 a completed turn) and SNAPSHOT_BYTES (its real length) are hexadecimal, `-` if empty; all other
//! numbers are decimal. NODE KIND NUMBER VALUE is the attempted entry. Fields are one space apart.
//!
//! `--max-bytes` keeps to jobs of at most N bytes (1 or more). `--kind` keeps to accepted jobs with
//! long enough buffers (`valid`) or to damaged jobs and short buffers (`damaged`); without it, `mixed`.
//! The same seed, count and options give the same lines.

use std::io::{self, BufWriter, Write};
use std::process::ExitCode;

use flow_reference::generate::{case, Case, Kind};
use flow_reference::output::{snapshot_length, ENTRY_BYTES};
use flow_reference::{decode, hex, run, Answer, Mode, Outcome};

struct Options {
    seed: u64,
    count: u64,
    max_bytes: usize,
    kind: Kind,
}

fn options() -> Option<Options> {
    let mut arguments = std::env::args().skip(1);
    let seed = arguments.next()?.parse().ok()?;
    let count = arguments.next()?.parse().ok()?;
    let mut options = Options { seed, count, max_bytes: usize::MAX, kind: Kind::Mixed };
    while let Some(name) = arguments.next() {
        let value = arguments.next()?;
        match (name.as_str(), value.as_str()) {
            ("--max-bytes", number) => options.max_bytes = number.parse().ok().filter(|&n| n > 0)?,
            ("--kind", "valid") => options.kind = Kind::Valid,
            ("--kind", "damaged") => options.kind = Kind::Damaged,
            ("--kind", "mixed") => options.kind = Kind::Mixed,
            _ => return None,
        }
    }
    Some(options)
}

fn main() -> ExitCode {
    let Some(options) = options() else {
        eprintln!("usage: jobs SEED COUNT [--max-bytes N] [--kind valid|damaged|mixed]");
        return ExitCode::from(2);
    };
    let mut out = BufWriter::new(io::stdout().lock());
    for index in 0..options.count {
        let case = case(options.seed, index, options.kind, options.max_bytes);
        if write_case(&mut out, &case).is_err() {
            return ExitCode::FAILURE;
        }
    }
    match out.flush() {
        Ok(()) => ExitCode::SUCCESS,
        Err(_) => ExitCode::FAILURE,
    }
}

fn write_case(out: &mut impl Write, case: &Case) -> io::Result<()> {
    let mode = match case.mode {
        Mode::Monitored => "monitored",
        Mode::Unmonitored => "unmonitored",
    };
    let [trace, snapshot, work] = case.lengths;
    write!(out, "{mode} {trace} {snapshot} {work} {} -> ", hex::encode(&case.job))?;
    let (mut trace, mut snapshot, mut work) = (vec![0; trace], vec![0; snapshot], vec![0; work]);
    match run(&case.job, case.mode, &mut trace, &mut snapshot, &mut work) {
        Outcome::Refused(refusal) => writeln!(out, "refused {} {}", refusal.number, refusal.place),
        Outcome::Ran(answer) => {
            let program = decode(&case.job).expect("the job was accepted");
            let length = snapshot_length(&program, &snapshot);
            write_answer(out, &answer, &trace[..ENTRY_BYTES * answer.turns], &snapshot[..length])
        }
    }
}

fn write_answer(out: &mut impl Write, answer: &Answer, trace: &[u8], snapshot: &[u8]) -> io::Result<()> {
    let Answer { stop, turns, attempted, .. } = answer;
    let (node, kind, number, value) = (attempted.node, attempted.kind, attempted.number, attempted.value);
    let (trace, snapshot) = (hex::encode(trace), hex::encode(snapshot));
    writeln!(out, "ran {stop} {turns} {node} {kind} {number} {value} {trace} {snapshot}")
}
