//! Refusal 6: numbers that are declared and that are not, scopes, ports and owners, and what was not opened.

use super::worlds::{before, behind, command, full, middle, operands, small, world};
use super::Job;
use crate::generate::plan::Plan;
use crate::table::{self, *};

pub fn jobs() -> Vec<Job> {
    let plans = [small(), middle(), full()];
    let mut jobs = vec![vec![NODE], vec![NODE, FLOW], vec![FLOW, NODE]];
    for plan in &plans {
        jobs.extend(commands_of_01().flat_map(|row| edges(plan, row)));
    }
    jobs.extend(owners());
    jobs.extend(without_body());
    jobs
}

/// How many things an operand may name.
fn declared(plan: &Plan, operand: Operand) -> Option<usize> {
    match operand {
        Operand::Node | Operand::TargetNode => Some(plan.nodes()),
        Operand::Function => Some(plan.functions),
        Operand::Variable => Some(plan.variables.len()),
        Operand::Port => Some(PORTS),
        _ => None,
    }
}

/// Each operand of a command: the last number that is declared, the first that is not, and the largest.
pub fn edges(plan: &Plan, row: &Row) -> Vec<Job> {
    let mut jobs = Vec::new();
    for (index, &operand) in row.operands.iter().enumerate() {
        let Some(count) = declared(plan, operand) else { continue };
        for number in [count - 1, count, 255] {
            let mut list = operands(plan, row.byte);
            list[index] = number as u32;
            jobs.push([before(plan, row.byte), table::write(row.byte, &list)].concat());
        }
    }
    jobs
}

/// Scopes and owners of a variable, in worlds with and without nodes and flows.
fn owners() -> Vec<Job> {
    let empty_flow = world(&[0], &[], 0);
    let mut jobs = Vec::new();
    for plan in [Plan::default(), empty_flow, small(), middle()] {
        let (nodes, flows) = (plan.nodes() as u8, plan.flows as u8);
        for scope in [0, 1, 2, 3, 255] {
            for owner in [0, 1, flows.saturating_sub(1), flows, nodes.saturating_sub(1), nodes, 255] {
                jobs.push(behind(&plan, &[VAR, scope, owner, 1, 2, 3, 4]));
            }
        }
    }
    jobs
}

/// Each handler command before every BODY: alone, behind declarations and behind permissions.
fn without_body() -> Vec<Job> {
    let mut jobs = Vec::new();
    for row in COMMANDS.iter().filter(|row| is_handler(row.byte)) {
        let command = command(&small(), row.byte);
        let heads = [vec![], vec![FLOW, NODE], small().bytes(), behind(&small(), &[ANY, 0, 0])];
        jobs.extend(heads.into_iter().map(|head| [head, command.clone()].concat()));
    }
    jobs
}
