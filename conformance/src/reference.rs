//! The second implementation, with its answer as the library's numbers.

use flow_reference::{run_or_dispatch, Mode, Refusal};
use leqsumir::{COUNTS, NODE_COUNTS};

use crate::tallies::Input;

/// Runs a job, dispatched if there is a budget; the nine numbers of the answer.
pub fn run(job: &[u8], budget: Option<u64>, mode: Mode, [trace, snapshot, work]: [&mut [u8]; 3]) -> [u64; 9] {
    run_or_dispatch(job, budget, mode, trace, snapshot, work).numbers()
}

/// Counts the messages of each node.
pub fn tally(input: &Input, counts: &mut [u64; COUNTS]) -> [u64; 3] {
    match flow_reference::tally(input.job, input.turns, input.trace, input.snapshot) {
        Ok(tallies) => {
            let all = counts.chunks_exact_mut(NODE_COUNTS).zip(&tallies);
            all.for_each(|(own, tally)| own.copy_from_slice(&tally.numbers()));
            [0, 0, tallies.len() as u64]
        }
        Err(Refusal { number, place }) => [number.into(), place as u64, 0],
    }
}
