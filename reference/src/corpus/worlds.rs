//! Declarations to put commands behind, and commands that are right there.

use super::Job;
use crate::generate::plan::Plan;
use crate::table::{self, *};

/// Flows of so many nodes each, variables by scope and owner, and so many functions.
pub fn world(nodes: &[usize], variables: &[(u8, u8)], functions: usize) -> Plan {
    let mut plan = Plan::default();
    for &count in nodes {
        plan.add_flow();
        for _ in 0..count {
            plan.add_node();
        }
    }
    for &(scope, owner) in variables {
        plan.add_variable(scope, owner, 5);
    }
    for answer in 0..functions {
        plan.add_function(answer as u32);
    }
    plan
}

/// Nodes 0 and 1 in flow 0, node 2 in flow 1; variables: 0 of node 0, 1 of flow 0, 2 of flow 1, 3 global,
/// 4 of node 2; two functions.
pub fn small() -> Plan {
    world(&[2, 1], &[(0, 0), (1, 0), (1, 1), (2, 0), (0, 2)], 2)
}

/// Nodes 0 to 2 in flow 0, none in flow 1, 3 to 5 in flow 2; variables of some nodes, of every flow and
/// global; five functions.
pub fn middle() -> Plan {
    world(&[3, 0, 3], &[(2, 0), (1, 2), (0, 4), (1, 1), (0, 0), (1, 0), (0, 2)], 5)
}

/// Every count of declarations reached.
pub fn full() -> Plan {
    let variable = |number: usize| match number % 3 {
        0 => (0, (number % MAX_NODES) as u8),
        1 => (1, (number % MAX_FLOWS) as u8),
        _ => (2, 0),
    };
    let variables: Vec<(u8, u8)> = (0..MAX_VARIABLES).map(variable).collect();
    world(&[MAX_NODES / MAX_FLOWS; MAX_FLOWS], &variables, MAX_FUNCTIONS)
}

/// One flow of so many nodes.
pub fn flow(nodes: u8) -> Job {
    [&[FLOW][..], &[NODE].repeat(nodes.into())].concat()
}

/// Wires: node, port, target.
pub fn wires(list: &[[u8; 3]]) -> Job {
    list.iter().flat_map(|&[node, port, target]| [WIRE, node, port, target]).collect()
}

/// A node's handler.
pub fn body(node: u8, commands: &[u8]) -> Job {
    [&[BODY, node], commands].concat()
}

/// The first message of a node: always 7, so that it is the sender that tells messages apart.
pub fn start(node: u8) -> Job {
    table::write(START, &[node.into(), 7])
}

/// Turns of nodes, each so often.
pub fn turns(list: &[(u8, usize)]) -> Job {
    list.iter().flat_map(|&(node, times)| [TURN, node].repeat(times)).collect()
}

/// The plan's job with more bytes behind it.
pub fn behind(plan: &Plan, tail: &[u8]) -> Job {
    [&plan.bytes(), tail].concat()
}

/// The plan's job, with a body of node 0 open if the byte is a handler command's.
pub fn before(plan: &Plan, byte: u8) -> Job {
    let body: &[u8] = if table::is_handler(byte) { &[BODY, 0] } else { &[] };
    behind(plan, body)
}

/// Operands that pass every test behind the plan's declarations, if it has node 0 and function 0.
pub fn operands(plan: &Plan, byte: u8) -> Vec<u32> {
    let row = table::row(byte).expect("a byte of the table");
    let global = plan.variables.iter().position(|&(scope, _)| scope == 2).unwrap_or(0) as u32;
    let operand = |operand: &Operand| match operand {
        Operand::Scope => 2,
        Operand::Variable => global,
        Operand::Number => 7,
        _ => 0,
    };
    row.operands.iter().map(operand).collect()
}

/// A command that passes every test behind the plan's declarations.
pub fn command(plan: &Plan, byte: u8) -> Vec<u8> {
    table::write(byte, &operands(plan, byte))
}

/// The answer of a function to an argument.
pub fn reply(function: u32, argument: u32, answer: u32) -> Vec<u8> {
    table::write(REPLY, &[function, argument, answer])
}

/// SPAN of a node and function, from `low` to `high`.
pub fn span(node: u32, function: u32, low: u32, high: u32) -> Vec<u8> {
    table::write(SPAN, &[node, function, low, high])
}
