//! Refusal 5: every largest count reached and one past it; and what has no largest count.

use super::worlds::{before, behind, command, full, small};
use super::Job;
use crate::generate::plan::Plan;
use crate::table::{self, *};

pub fn jobs() -> Vec<Job> {
    [flows_and_nodes(), variables_and_functions(), bodies(), args(), turns(), uncounted()].concat()
}

/// `head` and the pieces 0, 1, 2 and so on behind it: as many as `most`, and one more.
fn at_and_past(head: &[u8], most: usize, piece: impl Fn(usize) -> Vec<u8>) -> Vec<Job> {
    let job = |count: usize| [head.to_vec(), (0..count).flat_map(&piece).collect()].concat();
    vec![job(most), job(most + 1)]
}

/// Flows with and without nodes; nodes in one flow, behind others, in the last of eight.
fn flows_and_nodes() -> Vec<Job> {
    let late = [&[FLOW][..], &[NODE; 31], &[FLOW]].concat();
    [
        at_and_past(&[], MAX_FLOWS, |_| vec![FLOW]),
        at_and_past(&[], MAX_FLOWS, |_| vec![FLOW, NODE]),
        at_and_past(&[FLOW, NODE, NODE], MAX_FLOWS - 1, |_| vec![FLOW]),
        at_and_past(&[FLOW], MAX_NODES, |_| vec![NODE]),
        at_and_past(&[FLOW, NODE, FLOW, NODE], MAX_NODES - 2, |_| vec![NODE]),
        at_and_past(&[FLOW; 8], MAX_NODES, |_| vec![NODE]),
        at_and_past(&late, 1, |_| vec![NODE]),
    ]
    .concat()
}

/// Variables of one scope and of all, functions, both in turn, and each behind all of the other.
fn variables_and_functions() -> Vec<Job> {
    let global = |number: usize| table::write(VAR, &[2, 0, number as u32]);
    let any_scope = |number: usize| table::write(VAR, &[(number % 3) as u32, 0, 1 << (number % 32)]);
    let function = |number: usize| table::write(FUN, &[number as u32]);
    let variables: Job = (0..MAX_VARIABLES).flat_map(global).collect();
    let functions: Job = (0..MAX_FUNCTIONS).flat_map(function).collect();
    [
        at_and_past(&[], MAX_VARIABLES, global),
        at_and_past(&[FLOW, NODE], MAX_VARIABLES, any_scope),
        at_and_past(&[FLOW], MAX_FUNCTIONS, function),
        at_and_past(&[], MAX_FUNCTIONS, |number| [global(number), function(number)].concat()),
        at_and_past(&functions, MAX_VARIABLES, global),
        at_and_past(&variables, MAX_FUNCTIONS, function),
    ]
    .concat()
}

/// Each handler command in a body, in a second body behind a full one, and in a third behind a short one.
fn bodies() -> Vec<Job> {
    let plan = small();
    let full = behind(&plan, &[&[BODY, 0][..], &[SKIP; MAX_BODY_COMMANDS], &[BODY, 1]].concat());
    let short = behind(&plan, &[BODY, 2, SKIP, BODY, 1, SKIP, SKIP, BODY, 0]);
    let mut jobs = Vec::new();
    for row in COMMANDS.iter().filter(|row| is_handler(row.byte)) {
        for head in [&before(&plan, row.byte), &full, &short] {
            jobs.extend(at_and_past(head, MAX_BODY_COMMANDS, |_| command(&plan, row.byte)));
        }
    }
    for byte in [JUMP, JUMPZ] {
        let head = before(&plan, byte);
        jobs.extend(at_and_past(&head, MAX_BODY_COMMANDS, |_| vec![byte, MAX_BODY_COMMANDS as u8]));
    }
    jobs
}

/// ARG of one node and function, of several, and behind and between permissions that do not count.
fn args() -> Vec<Job> {
    let one = |number: usize| table::write(ARG, &[0, 0, number as u32]);
    let several = |number: usize| {
        let (node, function, value) = (number % 3, number / 3 % 2, number / 6);
        table::write(ARG, &[node as u32, function as u32, (value as u32) << 24])
    };
    let others = [ANY, 0, 0, ANY, 1, 1, READ, 0, 3, WRITE, 2, 3];
    [at_and_past(&small().bytes(), MAX_ARGS, one), at_and_past(&behind(&small(), &others), MAX_ARGS, several)]
        .concat()
}

/// Turns of several nodes.
fn turns() -> Vec<Job> {
    at_and_past(&small().bytes(), MAX_TURNS, |number| vec![TURN, (number % 3) as u8])
}

/// All declarations and one more; a body for every node and one more; everything at once.
fn uncounted() -> Vec<Job> {
    let plan = full();
    let bodies: Job = (0..MAX_NODES as u8).flat_map(|node| [BODY, node]).collect();
    let everything = everything();
    vec![
        plan.bytes(),
        behind(&plan, &command(&plan, VAR)),
        behind(&plan, &command(&plan, FUN)),
        behind(&plan, &bodies),
        behind(&plan, &[&bodies[..], &[BODY, 0]].concat()),
        behind(&plan, &[&bodies[..], &[BODY, 31]].concat()),
        behind(&plan, &[&bodies[..], &[BODY, 32]].concat()),
        [&everything[..], &[START, 31, 0, 0, 0, 0]].concat(),
        everything,
    ]
}

/// All declarations, every wire, a full body for every node with the permissions that its commands use, each of them
/// another one, 256 ARG commands and a START for every flow: accepted.
fn everything() -> Job {
    let mut plan = full();
    for node in 0..MAX_NODES as u32 {
        wires(&mut plan, node);
        plan.push(BODY, &[node]);
        accesses(&mut plan, node);
    }
    (0..MAX_ARGS as u32).for_each(|number| plan.push(ARG, &[number % 32, number / 8, number]));
    (0..MAX_FLOWS as u32).for_each(|flow| plan.push(START, &[4 * flow, 1]));
    plan.bytes()
}

/// Every wire of a node.
fn wires(plan: &mut Plan, node: u32) {
    for target in plan.nodes_of(plan.flow_of[node as usize]) {
        (0..PORTS as u32).for_each(|port| plan.push(WIRE, &[node, port, target.into()]));
    }
}

/// A node's handler without its BODY, as long as can be, and a permission for each of its commands: calls of all
/// functions, then reads and writes of the last variables that it shares.
fn accesses(plan: &mut Plan, node: u32) {
    let is_shared = |&variable: &u8| plan.sees(node as u8, variable) && plan.is_shared(variable);
    let shared: Vec<u8> = (0..MAX_VARIABLES as u8).rev().filter(is_shared).collect();
    let calls = (0..MAX_FUNCTIONS as u8).map(|function| (ANY, CALL, function));
    let others = shared.into_iter().flat_map(|variable| [(READ, GET, variable), (WRITE, PUT, variable)]);
    for (permission, command, number) in calls.chain(others).take(MAX_BODY_COMMANDS) {
        plan.push(permission, &[node, number.into()]);
        plan.push(command, &[number.into()]);
    }
}
