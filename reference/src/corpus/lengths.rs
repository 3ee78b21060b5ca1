//! Refusal 1, and jobs of the largest length.

use super::worlds::small;
use super::Job;
use crate::generate::count::pad;
use crate::generate::Random;
use crate::table::*;

/// A job of exactly this length, valid but for it: 32 nodes, long bodies, all turns.
fn of_length(length: usize) -> Job {
    let mut plan = small();
    pad(&mut plan, &mut Random::new(1), length).expect("long bodies reach the length");
    plan.bytes()
}

/// A job of the largest length, whose last bytes are these.
fn ending(tail: &[u8]) -> Job {
    let mut job = of_length(MAX_JOB_BYTES - tail.len());
    job.extend_from_slice(tail);
    job
}

/// The longest accepted job with an undeclared node in its last turn.
fn undeclared_last() -> Job {
    let mut job = of_length(MAX_JOB_BYTES);
    job[MAX_JOB_BYTES - 1] = MAX_NODES as u8;
    job
}

/// None, the most and more bytes, right or broken; then refusals at the end of the longest jobs.
pub fn jobs() -> Vec<Job> {
    vec![
        vec![],
        of_length(MAX_JOB_BYTES),
        of_length(MAX_JOB_BYTES + 1),
        of_length(MAX_JOB_BYTES + 2),
        vec![0; MAX_JOB_BYTES + 1],
        vec![FLOW; MAX_JOB_BYTES + 16],
        vec![FLOW; MAX_JOB_BYTES],
        ending(&[0xFF]),
        ending(&[TURN]),
        ending(&[FLOW]),
        ending(&[TURN, 0]),
        undeclared_last(),
    ]
}
