//! Wires inside flows: self wires, several targets at a port, unwired ports, stars.

use super::plan::Plan;
use super::random::Random;
use crate::table::WIRE;

pub fn wire(plan: &mut Plan, random: &mut Random, most: usize) {
    if plan.nodes() == 0 {
        return;
    }
    let mut wires: Vec<[u32; 3]> =
        if random.draws_senders && random.chance(50) { stars(plan, random) } else { Vec::new() };
    for _ in 0..random.between(most / 2, most) {
        let node = random.below(plan.nodes()) as u8;
        let port = random.pick(&[0, 0, 0, 1, 1, 2, 3]);
        let siblings = plan.nodes_of(plan.flow_of[usize::from(node)]);
        let target = if random.chance(15) { node } else { random.pick(&siblings) };
        let wire = [node.into(), port, target.into()];
        if !wires.contains(&wire) {
            wires.push(wire);
        }
    }
    for wire in wires {
        plan.push(WIRE, &wire);
    }
}

/// Wires between one node of each flow and all others of it, both ways, so that it gets messages of several senders.
fn stars(plan: &Plan, random: &mut Random) -> Vec<[u32; 3]> {
    let mut wires = Vec::new();
    for flow in 0..plan.flows as u8 {
        let mut nodes = plan.nodes_of(flow);
        random.shuffle(&mut nodes);
        let Some((&middle, others)) = nodes.split_first() else { continue };
        let pairs = others.iter().flat_map(|&node| [(middle, node), (node, middle)]);
        wires.extend(pairs.map(|(node, target)| [node.into(), 0, target.into()]));
    }
    wires
}
