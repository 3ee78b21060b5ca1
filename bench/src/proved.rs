//! The proved run and tally, through the functions of their static libraries.

use flow_reference::Mode;

use crate::buffers::Buffers;

/// Runs a job, dispatched if there is a budget; the nine numbers of the answer, of which the last is 0 with written turns.
pub fn run(job: &[u8], budget: Option<u64>, mode: Mode, buffers: &mut Buffers) -> [u64; 9] {
    let Buffers { trace, snapshot, work, .. } = buffers;
    match (budget, mode) {
        (None, Mode::Monitored) => with_zero(leqsumir::run_monitored(job, trace, snapshot, work)),
        (None, Mode::Unmonitored) => with_zero(leqsumir::run_unmonitored(job, trace, snapshot, work)),
        (Some(budget), Mode::Monitored) => leqsumir::dispatch_monitored(job, budget, trace, snapshot, work),
        (Some(budget), Mode::Unmonitored) => {
            leqsumir::dispatch_unmonitored(job, budget, trace, snapshot, work)
        }
    }
}

/// Counts the messages of each node from what a run of the job left, so many entries of it; the three numbers of the answer.
pub fn tally(job: &[u8], turns: u64, Buffers { trace, snapshot, counts, .. }: &mut Buffers) -> [u64; 3] {
    leqsumir::tally(job, turns, trace, snapshot, counts)
}

/// Eight numbers and a 0.
fn with_zero([refusal, place, stop, turns, node, kind, number, value]: [u64; 8]) -> [u64; 9] {
    [refusal, place, stop, turns, node, kind, number, value, 0]
}
