//! One run of a pair: what it left, and what became of the variable.

use flow_reference::command::Command;
use flow_reference::corpus::Run;
use flow_reference::generate::secret::variables;
use flow_reference::generate::walk::walk;
use flow_reference::outcome::kind;
use flow_reference::output::{entry_from_bytes, variables_place, ENTRY_BYTES};

use crate::compare::{left_by, Answer, Left};
use crate::guarded::Guarded;
use crate::library;
use crate::tallies::{self, Input};

pub struct Trial {
    pub answer: Answer,
    /// The tally's answer, and its counts between guard numbers.
    pub tally: ([u64; 3], Vec<u64>),
    /// The variable's place in the snapshot; none after a refusal.
    pub place: Option<usize>,
    /// The number at that place, if there are four bytes.
    pub number: Option<u32>,
    /// The value that the trace says was written to the variable last.
    pub written: Option<u32>,
    /// The variable's start in the job.
    pub start: u32,
    /// Job, trace, snapshot and work, with guard bytes; the variable's bytes in job and snapshot are hidden by zeros.
    pub bytes: [Guarded; 4],
}

impl Trial {
    /// Makes a run and tallies what it left. The variable's places are found by the bytes of job and snapshot alone.
    pub fn of(run: &Run, variable: usize) -> Trial {
        let Left { answer, mut bytes } = left_by(library::run, run);
        let [job, trace, snapshot, _] = bytes.each_ref().map(Guarded::bytes);
        let input = Input { job, turns: answer[3], trace, snapshot };
        let tally = tallies::left_by(library::tally, &input, u64::MAX);
        let written = last_written(&input, variable);
        let nodes = walk(&run.job).filter(|placed| placed.command == Command::Node).count();
        let place = (answer[0] == 0).then(|| variables_place(nodes, snapshot) + 4 * variable);
        let number = place.and_then(|place| hide(&mut bytes[2], place));
        let declared = variables(&run.job)[variable];
        hide(&mut bytes[0], declared.place);
        Trial { answer, tally, place, number, written, start: declared.start, bytes }
    }

    /// What is wrong with the variable's number in the snapshot, if anything: it is the one written last or, if there is
    /// none, the start.
    pub fn wrong_number(&self) -> Option<String> {
        let expected = self.place.map(|_| self.written.unwrap_or(self.start));
        (self.number != expected).then(|| format!("variable {:?}, expected {expected:?}", self.number))
    }
}

/// The value of the last entry of kind 4 with this variable.
fn last_written(left: &Input, variable: usize) -> Option<u32> {
    let entries = left.trace.chunks_exact(ENTRY_BYTES).take(left.turns as usize).map(entry_from_bytes);
    let is_write = |kind, number| kind == kind::WRITE && usize::from(number) == variable;
    entries.rev().find(|entry| is_write(entry.kind, entry.number)).map(|entry| entry.value)
}

/// The number at a place, where there are zeros afterwards; none if there are not four bytes.
fn hide(bytes: &mut Guarded, place: usize) -> Option<u32> {
    let four = bytes.slice().get_mut(place..)?.first_chunk_mut::<4>()?;
    Some(u32::from_le_bytes(std::mem::take(four)))
}
