//! Flows and nodes: FLOW and NODE interleaved, some flows without nodes.

use super::plan::Plan;
use super::random::Random;
use super::size::Size;

pub fn shape(plan: &mut Plan, random: &mut Random, size: &Size) {
    let flows = random.between(1, size.flows);
    let nodes = if random.chance(4) { 0 } else { random.between(1, size.nodes) };
    let mut flow_of: Vec<usize> = (0..nodes).map(|_| random.below(flows)).collect();
    flow_of.sort_unstable();
    for flow in flow_of {
        while plan.flows <= flow {
            plan.add_flow();
        }
        plan.add_node();
    }
    while plan.flows < flows {
        plan.add_flow();
    }
}
