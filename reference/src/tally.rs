//! The tally of each node (02, S-12): the messages that were started, received and taken there, and those that wait.

use crate::decode::decode;
use crate::engine::members;
use crate::outcome::{kind, Entry, Refusal};
use crate::output::{entry_from_bytes, waiting_counts, ENTRY_BYTES};
use crate::program::Program;

/// Counts of one node. After a run, as after each of its turns: started + received = taken + waiting.
#[derive(Clone, Copy, Debug, Default, PartialEq, Eq)]
pub struct Tally {
    /// Its START commands, whether their messages are taken or not.
    pub started: u64,
    /// Entries of kind 6 whose node and port are wired to it.
    pub received: u64,
    /// Its entries of kind 1.
    pub taken: u64,
    /// The waiting count in the snapshot.
    pub waiting: u64,
}

impl Tally {
    /// In the order in which they are printed.
    pub fn numbers(&self) -> [u64; 4] {
        [self.started, self.received, self.taken, self.waiting]
    }
}

/// The tallies of a program's nodes, in order, from the entries of a run and the waiting counts behind it. An entry of a
/// node or over a port that there is not counts nowhere.
pub fn tallies(
    program: &Program,
    entries: impl Iterator<Item = Entry>,
    waiting: impl Iterator<Item = u8>,
) -> Vec<Tally> {
    let mut list = vec![Tally::default(); program.nodes.len()];
    for &(node, _) in &program.starts {
        list[usize::from(node)].started += 1;
    }
    for entry in entries {
        count(program, &entry, &mut list);
    }
    for (tally, waiting) in list.iter_mut().zip(waiting) {
        tally.waiting = waiting.into();
    }
    list
}

/// Counts an entry: a message taken at its node, or one received at each target of its port.
fn count(program: &Program, entry: &Entry, list: &mut [Tally]) {
    let node = usize::from(entry.node);
    match entry.kind {
        kind::BEGIN => {
            if let Some(tally) = list.get_mut(node) {
                tally.taken += 1;
            }
        }
        kind::SEND => {
            let wires = program.nodes.get(node).and_then(|node| node.wires.get(usize::from(entry.number)));
            members(wires.copied().unwrap_or(0)).for_each(|target| list[usize::from(target)].received += 1);
        }
        _ => {}
    }
}

/// The tallies from the bytes of a run: of its job, of its trace, of which the first `turns` entries count, as far as they
/// are there in full, and of its snapshot. Any bytes will do. It refuses by 1 to 9, 15 or 19, as a run of
/// the job's written turns does.
pub fn tally(job: &[u8], turns: u64, trace: &[u8], snapshot: &[u8]) -> Result<Vec<Tally>, Refusal> {
    let program = decode(job)?;
    let turns = usize::try_from(turns).unwrap_or(usize::MAX);
    let entries = trace.chunks_exact(ENTRY_BYTES).take(turns).map(entry_from_bytes);
    Ok(tallies(&program, entries, waiting_counts(snapshot)))
}
