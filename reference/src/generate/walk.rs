//! The commands of any bytes, one behind the other by the table's lengths alone: no command is tested.

use crate::command::{self, Command};

/// A command, where it stands, and where it ends.
#[derive(Clone, Copy, Debug)]
pub struct Placed {
    pub command: Command,
    pub place: usize,
    pub end: usize,
}

/// The commands of a job, as far as they are whole.
pub fn walk(job: &[u8]) -> impl Iterator<Item = Placed> + '_ {
    let mut place = 0;
    std::iter::from_fn(move || {
        let (command, _, end) = (place < job.len()).then(|| command::read(job, place).ok())??;
        let placed = Placed { command, place, end };
        place = end;
        Some(placed)
    })
}

/// The job without these commands, as far as commands are whole; what follows them stays.
pub fn without(job: &[u8], is_dropped: impl Fn(&Command) -> bool) -> Vec<u8> {
    let (mut kept, mut rest) = (Vec::new(), 0);
    for Placed { command, place, end } in walk(job) {
        if !is_dropped(&command) {
            kept.extend_from_slice(&job[place..end]);
        }
        rest = end;
    }
    kept.extend_from_slice(&job[rest..]);
    kept
}
