//! Jobs with unused permissions, mended: a handler command for each of these permissions, which is never made.

use super::Job;
use crate::generate::plan::{Plan, HANDLERS, PERMISSIONS};
use crate::generate::uses::use_of;
use crate::table::{self, group, BODY, JUMP, TURN};
use crate::{decode, Refusal};

/// The jobs, of which those that 19 refuses are mended.
pub fn all_mended(jobs: Vec<Job>) -> Vec<Job> {
    jobs.into_iter().map(mended).collect()
}

/// The job; if it is refused by 19, mended. Its nodes do what they did, but those with new commands need one more turn
/// for a handler, and get it.
pub fn mended(job: Job) -> Job {
    let Err(Refusal { number: 19, .. }) = decode(&job) else { return job };
    let mut plan = Plan::split(&job);
    for node in 0..table::MAX_NODES as u8 {
        let is_unused = |permission: &&Vec<u8>| permission[1] == node && !plan.is_used(permission);
        let mut uses: Vec<_> =
            plan.groups[PERMISSIONS].iter().filter(is_unused).map(|one| use_of(one)).collect();
        uses.sort_unstable();
        uses.dedup();
        if !uses.is_empty() {
            add_uses(&mut plan, node, &uses);
            add_turn(&mut plan, node);
        }
    }
    plan.bytes()
}

/// Puts these commands behind a node's handler, with a jump over them.
fn add_uses(plan: &mut Plan, node: u8, uses: &[[u8; 2]]) {
    let body = plan.body(node).unwrap_or_else(|| {
        plan.push(BODY, &[node.into()]);
        let end = plan.groups[HANDLERS].len();
        end..end
    });
    let jump = vec![JUMP, (body.len() + 1 + uses.len()) as u8];
    let commands = std::iter::once(jump).chain(uses.iter().map(|command| command.to_vec()));
    plan.groups[HANDLERS].splice(body.end..body.end, commands);
}

/// One more turn for a node, behind its last one, if it has any.
fn add_turn(plan: &mut Plan, node: u8) {
    let turns = &mut plan.groups[usize::from(group(TURN))];
    if let Some(last) = turns.iter().rposition(|turn| turn[1] == node) {
        turns.insert(last, vec![TURN, node]);
    }
}
