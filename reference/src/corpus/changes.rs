//! Runs after which a byte that has to be kept or cleared is changed, so that their last line is `changed`.

use super::run::{exact, Change, Run, Runs};
use super::worked;
use crate::generate::buffers::{self, Lengths};
use crate::generate::dispatched::Dispatched;

/// An accepted and a refused job, K1 and K10, with each change and buffers that are longer than needed.
pub fn runs(runs: &mut Runs) -> Vec<Run> {
    let k = worked::jobs();
    [&k[0], &k[8]]
        .into_iter()
        .flat_map(|job| changed(exact(job), |lengths| runs.both(job, lengths)))
        .collect()
}

/// The same dispatched: K1 without its turns, with its turns, which 14 refuses, and with a budget that 13 refuses.
pub fn dispatched(runs: &mut Runs) -> Vec<Run> {
    let (k1, rest) = (worked::jobs().swap_remove(0), worked::dispatched_k1());
    let mut list = Vec::new();
    for (job, budget) in [(&rest, 9), (&k1, 9), (&rest, 0)] {
        let job = Dispatched { job: job.clone(), budget };
        list.extend(changed(buffers::exact(9), |lengths| runs.both_dispatched(&job, lengths)));
    }
    list
}

/// Both modes with each change and buffers that are longer than these.
fn changed(exact: Lengths, mut both: impl FnMut(Lengths) -> [Run; 2]) -> Vec<Run> {
    let [trace, snapshot, work] = exact;
    let mut list = Vec::new();
    for change in [Change::FirstOfWork, Change::LastOfWork, Change::LastOfTrace, Change::LastOfSnapshot] {
        list.extend(both([trace + 3, snapshot + 5, work + 7]).map(|run| Run { change, ..run }));
    }
    list
}
