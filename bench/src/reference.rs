//! The second implementation, its answer in the numbers of the proved run.

use flow_reference::{run_or_dispatch, Mode, Refusal};
use leqsumir::NODE_COUNTS;

use crate::buffers::Buffers;

/// Runs a job, dispatched if there is a budget; the nine numbers of the answer.
#[inline(never)]
pub fn run(job: &[u8], budget: Option<u64>, mode: Mode, buffers: &mut Buffers) -> [u64; 9] {
    let Buffers { trace, snapshot, work, .. } = buffers;
    run_or_dispatch(job, budget, mode, trace, snapshot, work).numbers()
}

/// Counts the messages of each node from what a run of the job left, so many entries of it; the three numbers of the answer.
#[inline(never)]
pub fn tally(job: &[u8], turns: u64, Buffers { trace, snapshot, counts, .. }: &mut Buffers) -> [u64; 3] {
    match flow_reference::tally(job, turns, trace, snapshot) {
        Ok(tallies) => {
            let all = counts.chunks_exact_mut(NODE_COUNTS).zip(&tallies);
            all.for_each(|(own, tally)| own.copy_from_slice(&tally.numbers()));
            [0, 0, tallies.len() as u64]
        }
        Err(Refusal { number, place }) => [number.into(), place as u64, 0],
    }
}
