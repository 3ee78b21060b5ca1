//! One run by both sides, and where they differ.

use flow_reference::corpus::Run;
use flow_reference::generate::Random;
use flow_reference::Mode;

use crate::guarded::Guarded;
use crate::tallies::{self, Input};
use crate::{library, reference};

/// Runs a job, dispatched if there is a budget, in these buffers: trace, snapshot, work. It gives the answer.
type Side = fn(&[u8], Option<u64>, Mode, [&mut [u8]; 3]) -> Answer;

/// Nine numbers; with written turns the last is 0.
pub type Answer = [u64; 9];

/// What a side left.
pub struct Left {
    pub answer: Answer,
    /// Job, trace, snapshot and work, with guard bytes.
    pub bytes: [Guarded; 4],
}

/// The names of these.
pub const NAMES: [&str; 4] = ["job", "trace", "snapshot", "work"];

/// Makes a run in dirty buffers.
pub fn left_by(side: Side, run: &Run) -> Left {
    let mut job = Guarded::holding(&run.job, run.seed);
    let [mut trace, mut snapshot, mut work] = run.lengths.map(|length| Guarded::dirty(run.seed, length));
    let answer = side(job.slice(), run.budget, run.mode, [trace.slice(), snapshot.slice(), work.slice()]);
    Left { answer, bytes: [job, trace, snapshot, work] }
}

/// The second implementation's answer, how many tallies were compared, and what the library leaves otherwise: a line each.
pub struct Compared {
    pub answer: Answer,
    pub tallies: u64,
    pub lines: Vec<String>,
}

/// Compares a run, and tallies of what it left. Its bytes are looked at after these, which have to leave them alone.
pub fn compare(run: &Run) -> Compared {
    let expected = left_by(reference::run, run);
    let found = left_by(library::run, run);
    let [job, trace, snapshot, _] = found.bytes.each_ref().map(Guarded::bytes);
    let input = Input { job, turns: found.answer[3], trace, snapshot };
    let (tallies, mut lines) = tallies::compare(&input, &mut random_of(run));
    if found.answer != expected.answer {
        lines.push(format!("answer {:?}, expected {:?}", found.answer, expected.answer));
    }
    for (name, (found, expected)) in NAMES.iter().zip(found.bytes.iter().zip(&expected.bytes)) {
        lines.extend(found.difference(expected).map(|difference| format!("{name}: {difference}")));
    }
    Compared { answer: expected.answer, tallies, lines }
}

/// Random numbers that depend on the run alone, so that they are the same when it is repeated.
fn random_of(run: &Run) -> Random {
    let lengths = run.lengths.iter().sum::<usize>() + run.job.len();
    Random::for_case(run.seed.into(), lengths as u64)
}
