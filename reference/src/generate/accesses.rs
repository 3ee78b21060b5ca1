//! More reads and writes of one variable in the handlers of a job.

use super::plan::{Plan, HANDLERS, PERMISSIONS};
use super::random::Random;
use crate::decode::decode;
use crate::table::{ADD, CALL, GET, PLUS, PUT, SET, SKIP, TAKE, WRITE};

/// An accepted job, with a part of its handler commands replaced by PUT, GET and PLUS of the variable, or by PUT alone;
/// PUT mostly with WRITE. Permissions that are unused then are left out. A refused job stays what it is.
pub fn with_accesses(job: &[u8], variable: u8, random: &mut Random) -> Vec<u8> {
    let Ok(program) = decode(job) else { return job.to_vec() };
    let mut plan = Plan::split(job);
    let percent = random.pick(&[10, 30, 60]);
    let bytes: &[u8] = random.pick(&[&[PUT], &[PUT, PUT, PUT, GET, PLUS], &[PUT, GET, PLUS]]);
    for index in 0..plan.groups[HANDLERS].len() {
        let node = plan.body_at(index).filter(|&node| program.sees(node, variable));
        let Some(node) = node.filter(|_| is_replaced(&plan, index) && random.chance(percent)) else {
            continue;
        };
        let byte = random.pick(bytes);
        plan.groups[HANDLERS][index] = vec![byte, variable];
        if byte == PUT && random.chance(90) {
            permit(&mut plan, vec![WRITE, node, variable]);
        }
    }
    plan.drop_unused();
    plan.bytes()
}

/// Whether a command of the handler group may be replaced: all but BODY, sends and jumps, so that mostly the same nodes
/// get messages as before.
fn is_replaced(plan: &Plan, index: usize) -> bool {
    matches!(plan.groups[HANDLERS][index][0], SET | TAKE | GET | PUT | ADD | PLUS | CALL | SKIP)
}

/// Adds a permission that is not there yet.
fn permit(plan: &mut Plan, permission: Vec<u8>) {
    if !plan.groups[PERMISSIONS].contains(&permission) {
        plan.groups[PERMISSIONS].push(permission);
    }
}
