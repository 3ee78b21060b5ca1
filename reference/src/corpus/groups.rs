//! Refusal 4: every command behind every other.

use super::worlds::{behind, command, world};
use super::Job;
use crate::generate::plan::Plan;
use crate::table::*;

/// All pairs of 01's commands: falling groups are refused, rising ones are not.
pub fn jobs() -> Vec<Job> {
    let plan = world(&[2], &[(2, 0)], 1);
    let mut jobs = Vec::new();
    for first in commands_of_01() {
        for second in commands_of_01() {
            let pair = [command(&plan, first.byte), command(&plan, second.byte)].concat();
            jobs.push([head(&plan, first.byte), pair].concat());
        }
    }
    jobs
}

/// What a command needs before it: a flow, the declarations, or an open body of node 1.
fn head(plan: &Plan, byte: u8) -> Job {
    match byte {
        FLOW | NODE => vec![FLOW],
        byte if is_handler(byte) => behind(plan, &[BODY, 1]),
        _ => plan.bytes(),
    }
}
