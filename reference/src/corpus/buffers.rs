//! Refusals 10 to 12: each buffer short, exact and longer, with the others so; and jobs refused before.

use super::run::{exact, Run, Runs};
use super::{full, worked, Job};
use crate::generate::buffers::Lengths;
use crate::table::*;

pub fn runs(runs: &mut Runs) -> Vec<Run> {
    let k = worked::jobs();
    let (k1, k2, k7, no_turns) = (&k[0], &k[1], &k[5], vec![FLOW, NODE, BODY, 0, JUMP, 1]);
    let mut list = Vec::new();
    for job in [k1, k2, k7, &no_turns] {
        list.extend(close(job).into_iter().flat_map(|lengths| runs.both(job, lengths)));
    }
    list.extend(runs.both(&full::fullest(), exact(&full::fullest())));
    for job in [k1, k7] {
        list.extend(far(job).into_iter().flat_map(|lengths| runs.both(job, lengths)));
    }
    for job in refused() {
        list.extend(some_lengths().into_iter().flat_map(|lengths| runs.both(&job, lengths)));
    }
    list
}

/// Every buffer short by one, exact, and longer by one, in all combinations.
fn close(job: &[u8]) -> Vec<Lengths> {
    let [trace, snapshot, work] = exact(job).map(|length| [length.saturating_sub(1), length, length + 1]);
    let mut list = Vec::new();
    for trace in trace {
        for snapshot in snapshot {
            list.extend(work.map(|work| [trace, snapshot, work]));
        }
    }
    list.dedup();
    list
}

/// One buffer much too short, the others exact, longer or empty.
fn far(job: &[u8]) -> Vec<Lengths> {
    let exact = exact(job);
    let mut list = Vec::new();
    for buffer in 0..3 {
        for short in [0, 1, exact[buffer] / 2, exact[buffer] - 7] {
            for others in [exact, exact.map(|length| length + 40), [0; 3]] {
                let mut lengths = others;
                lengths[buffer] = short;
                list.push(lengths);
            }
        }
    }
    list
}

/// No bytes, some, and as many as a run of 9 turns needs.
pub fn some_lengths() -> [Lengths; 6] {
    [[0; 3], [1; 3], [63, 3_136, 4_096], [62, 3_136, 4_096], [63, 3_135, 4_096], [70, 3_143, 4_095]]
}

/// A short job for each of 01's refusals 1 to 9, which come before the buffers are looked at.
pub fn refused() -> [Job; 9] {
    [
        vec![],
        vec![0x03],
        vec![FLOW, VAR],
        vec![FLOW, NODE, TURN, 0, NODE],
        vec![FLOW; 9],
        vec![NODE],
        vec![FLOW, NODE, FLOW, NODE, WIRE, 0, 0, 1],
        vec![FLOW, NODE, BODY, 0, BODY, 0],
        vec![FLOW, NODE, BODY, 0, JUMP, 2],
    ]
}
