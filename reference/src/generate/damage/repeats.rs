//! Refusal 8: repeated wires and permissions, a second BODY, a second START in a flow.

use super::{insert, Damaged};
use crate::generate::plan::Plan;
use crate::generate::random::Random;
use crate::table::{self, *};

/// Repeats one of the commands with this byte, whole, at a later place of its group.
pub fn repeated(plan: &mut Plan, random: &mut Random, byte: u8) -> Option<Damaged> {
    let indices = plan.indices(byte);
    if indices.is_empty() {
        return None;
    }
    let first = random.pick(&indices);
    let group = usize::from(group(byte));
    let command = plan.groups[group][first].clone();
    let index = random.between(first + 1, plan.groups[group].len());
    let place = insert(plan, group, index, command);
    Some(Damaged::new(plan, 8, place))
}

/// Another START in a flow, of the same node or of another one.
pub fn second_start(plan: &mut Plan, random: &mut Random, same: bool) -> Option<Damaged> {
    let indices = plan.indices(START);
    if indices.is_empty() {
        return None;
    }
    let first = random.pick(&indices);
    let group = usize::from(group(START));
    let node = plan.groups[group][first][1];
    let siblings = plan.nodes_of(plan.flow_of[usize::from(node)]);
    let nodes: Vec<u8> = siblings.into_iter().filter(|&other| (other == node) == same).collect();
    if nodes.is_empty() {
        return None;
    }
    let command = table::write(START, &[random.pick(&nodes).into(), random.value()]);
    let index = random.between(first + 1, plan.groups[group].len());
    let place = insert(plan, group, index, command);
    Some(Damaged::new(plan, 8, place))
}
