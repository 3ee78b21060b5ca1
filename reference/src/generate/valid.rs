//! Valid jobs; the permissions of some are unused, unless they are left out.

use super::plan::Plan;
use super::random::Random;
use super::size::{self, Size};
use super::{declare, handler, permit, reply, schedule, shape, wire};
use crate::decode::decode;
use crate::table::{group, START, TURN};

/// A job, valid but for unused permissions, of at most `max_bytes` bytes, which are at least 1.
pub fn valid(random: &mut Random, max_bytes: usize) -> Plan {
    loop {
        let size = size::draw(random, max_bytes);
        if let Some(plan) = build(random, &size, max_bytes) {
            return plan;
        }
    }
}

/// The same, far below the largest counts; as a base for damage.
pub fn medium(random: &mut Random) -> Plan {
    loop {
        if let Some(plan) = build(random, &size::MEDIUM, usize::MAX) {
            return plan;
        }
    }
}

fn build(random: &mut Random, size: &Size, max_bytes: usize) -> Option<Plan> {
    let mut plan = Plan::default();
    shape::shape(&mut plan, random, size);
    declare::declare(&mut plan, random, size);
    wire::wire(&mut plan, random, size.wires);
    handler::handlers(&mut plan, random, size.handler);
    starts(&mut plan, random);
    reply::replies(&mut plan, random);
    let program = decode(&plan.bytes()).expect("the generator's jobs are valid");
    let limit = if random.chance(50) { size.turns } else { random.between(1, size.turns) };
    let schedule = schedule::schedule(&program, random, limit);
    permit::permit(&mut plan, &schedule.entries, random);
    let room = max_bytes.checked_sub(plan.length())?;
    for &node in schedule.turns.iter().take(room / 2) {
        plan.add_turn(node);
    }
    Some(plan)
}

/// At most one first message a flow.
fn starts(plan: &mut Plan, random: &mut Random) {
    let mut flows: Vec<u8> = (0..plan.flows as u8).collect();
    random.shuffle(&mut flows);
    for flow in flows {
        let nodes = plan.nodes_of(flow);
        if !nodes.is_empty() && random.chance(92) {
            let value = random.value();
            plan.push(START, &[random.pick(&nodes).into(), value]);
        }
    }
}

/// Gives the schedule new turns: any nodes at all.
pub fn random_turns(plan: &mut Plan, random: &mut Random, count: usize) {
    plan.groups[usize::from(group(TURN))].clear();
    for _ in 0..count {
        let node = random.below(plan.nodes()) as u8;
        plan.add_turn(node);
    }
}
