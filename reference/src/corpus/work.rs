//! Work buffers of many lengths: a run clears the first 4,096 bytes and keeps the rest, however long it is.

use super::run::{exact, Change, Run, Runs};
use super::{full, worked, Job};
use crate::table::*;

/// One byte short, exact and longer: by a little, by much, about 16,384 bytes, as long as in a stored run it may be.
const WORK: [usize; 9] = [4_095, 4_096, 4_097, 5_000, 8_192, 16_383, 16_384, 16_385, 16_500];

/// Lengths whose last byte is changed after the run.
const CHANGED: [usize; 4] = [4_096, 4_097, 16_384, 16_500];

pub fn runs(runs: &mut Runs) -> Vec<Run> {
    let mut list = Vec::new();
    for (job, [trace, snapshot]) in jobs() {
        list.extend(WORK.into_iter().flat_map(|work| runs.both(&job, [trace, snapshot, work])));
    }
    list.extend(changed(runs));
    list
}

/// Jobs with the lengths of their trace and snapshot buffers. The first six are accepted: K1, K2, K5 and K7 end
/// with each stop, then there are one without turns and the fullest. K9 is refused, as is K1 by 10 and by 11.
fn jobs() -> Vec<(Job, [usize; 2])> {
    let k = worked::jobs();
    let no_turns = vec![FLOW, NODE, BODY, 0, JUMP, 1];
    let jobs = [&k[0], &k[1], &k[3], &k[5], &no_turns, &full::fullest(), &k[7]];
    let mut list: Vec<_> = jobs.map(|job| (job.clone(), long_enough(job))).to_vec();
    let [trace, snapshot] = long_enough(&k[0]);
    list.push((k[0].clone(), [trace - 1, snapshot]));
    list.push((k[0].clone(), [trace, snapshot - 1]));
    list
}

/// Lengths of trace and snapshot buffer, just long enough.
fn long_enough(job: &[u8]) -> [usize; 2] {
    let [trace, snapshot, _] = exact(job);
    [trace, snapshot]
}

/// K1 and K9 with the last byte of the work buffer changed, so that their last line is `changed`.
fn changed(runs: &mut Runs) -> Vec<Run> {
    let k = worked::jobs();
    let mut list = Vec::new();
    for job in [&k[0], &k[7]] {
        let [trace, snapshot] = long_enough(job);
        let pairs = CHANGED.into_iter().flat_map(|work| runs.both(job, [trace, snapshot, work]));
        list.extend(pairs.map(|run| Run { change: Change::LastOfWork, ..run }));
    }
    list
}
