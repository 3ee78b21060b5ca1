//! The proved run and tally, through the functions of their static libraries.

use flow_reference::Mode;
use leqsumir::COUNTS;

use crate::tallies::Input;

/// Runs a job, dispatched if there is a budget; the nine numbers of the answer, of which the last is 0 with written turns.
pub fn run(job: &[u8], budget: Option<u64>, mode: Mode, [trace, snapshot, work]: [&mut [u8]; 3]) -> [u64; 9] {
    match (budget, mode) {
        (None, Mode::Monitored) => with_zero(leqsumir::run_monitored(job, trace, snapshot, work)),
        (None, Mode::Unmonitored) => with_zero(leqsumir::run_unmonitored(job, trace, snapshot, work)),
        (Some(budget), Mode::Monitored) => leqsumir::dispatch_monitored(job, budget, trace, snapshot, work),
        (Some(budget), Mode::Unmonitored) => {
            leqsumir::dispatch_unmonitored(job, budget, trace, snapshot, work)
        }
    }
}

/// Counts the messages of each node.
pub fn tally(input: &Input, counts: &mut [u64; COUNTS]) -> [u64; 3] {
    leqsumir::tally(input.job, input.turns, input.trace, input.snapshot, counts)
}

/// Eight numbers and a 0.
fn with_zero(answer: [u64; 8]) -> [u64; 9] {
    std::array::from_fn(|number| answer.get(number).copied().unwrap_or(0))
}
