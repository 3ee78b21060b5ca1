//! Refusal 7: wires to other flows, variables unseen or not shared.

use super::{anywhere, body_of, insert, Damaged};
use crate::generate::plan::Plan;
use crate::generate::random::Random;
use crate::table::{self, *};

/// Two nodes in different flows.
fn apart(plan: &Plan, random: &mut Random) -> Option<(u8, u8)> {
    let node = random.below(plan.nodes().max(1)) as u8;
    stranger(plan, random, node).map(|other| (node, other))
}

/// A node of another flow.
fn stranger(plan: &Plan, random: &mut Random, node: u8) -> Option<u8> {
    let flow = *plan.flow_of.get(usize::from(node))?;
    let others: Vec<u8> =
        (0..plan.nodes() as u8).filter(|&other| plan.flow_of[usize::from(other)] != flow).collect();
    (!others.is_empty()).then(|| random.pick(&others))
}

pub fn wire_across_flows(plan: &mut Plan, random: &mut Random) -> Option<Damaged> {
    let (node, target) = apart(plan, random)?;
    let index = anywhere(plan, random, WIRE)?;
    let command = table::write(WIRE, &[node.into(), random.below(PORTS) as u32, target.into()]);
    let place = insert(plan, usize::from(group(WIRE)), index, command);
    Some(Damaged::new(plan, 7, place))
}

/// A new variable that the node does not see: another node's (scope 0) or another flow's (scope 1).
fn unseen(plan: &mut Plan, random: &mut Random, node: u8, scope: u8) -> Option<u8> {
    let owner = if scope == 1 {
        let own = plan.flow_of[usize::from(node)];
        let others: Vec<u8> = (0..plan.flows as u8).filter(|&flow| flow != own).collect();
        (!others.is_empty()).then(|| random.pick(&others))?
    } else {
        let others: Vec<u8> = (0..plan.nodes() as u8).filter(|&other| other != node).collect();
        (!others.is_empty()).then(|| random.pick(&others))?
    };
    Some(plan.add_variable(scope, owner, random.value()))
}

pub fn handler_unseen(plan: &mut Plan, random: &mut Random, byte: u8, scope: u8) -> Option<Damaged> {
    let index = anywhere(plan, random, byte)?;
    let variable = unseen(plan, random, body_of(plan, index), scope)?;
    let place = insert(plan, usize::from(group(byte)), index, table::write(byte, &[variable.into()]));
    Some(Damaged::new(plan, 7, place))
}

fn with_permission(
    plan: &mut Plan,
    random: &mut Random,
    byte: u8,
    node: u8,
    variable: u8,
) -> Option<Damaged> {
    let index = anywhere(plan, random, byte)?;
    let command = table::write(byte, &[node.into(), variable.into()]);
    let place = insert(plan, usize::from(group(byte)), index, command);
    Some(Damaged::new(plan, 7, place))
}

pub fn permission_unseen(plan: &mut Plan, random: &mut Random, byte: u8, scope: u8) -> Option<Damaged> {
    let node = random.below(plan.nodes().max(1)) as u8;
    plan.flow_of.get(usize::from(node))?;
    let variable = unseen(plan, random, node, scope)?;
    with_permission(plan, random, byte, node, variable)
}

/// READ or WRITE of the node's own variable.
pub fn permission_not_shared(plan: &mut Plan, random: &mut Random, byte: u8) -> Option<Damaged> {
    let node = random.below(plan.nodes().max(1)) as u8;
    plan.flow_of.get(usize::from(node))?;
    let variable = plan.add_variable(0, node, random.value());
    with_permission(plan, random, byte, node, variable)
}
