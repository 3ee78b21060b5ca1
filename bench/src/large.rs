//! The large job: 3,362 commands and no turns, for what it takes to decode a job and load its handlers.
//!
//! One flow with as many nodes, variables, functions and handler commands as a job can have, a wire from
//! every port, and lists of 32 commands for each node. The handlers have every handler command and use every
//! permission; none is run.

use flow_reference::table::{self, *};

// The largest counts that a job can have.
const NODES: u32 = MAX_NODES as u32;
const VARIABLES: u32 = MAX_VARIABLES as u32;
const FUNCTIONS: u32 = MAX_FUNCTIONS as u32;
const PORTS: u32 = table::PORTS as u32;
const BODY_COMMANDS: u32 = MAX_BODY_COMMANDS as u32;

/// The job's bytes.
pub fn job() -> Vec<u8> {
    let parts = [declarations(), of_each_node(wires), of_each_node(permissions), of_each_node(handler)];
    [parts.concat(), table::write(START, &[0, 2])].concat()
}

/// The flow, its nodes, the variables, all of them global, and the functions.
fn declarations() -> Vec<u8> {
    let nodes = (0..NODES).flat_map(|_| table::write(NODE, &[]));
    let variables = (0..VARIABLES).flat_map(|variable| table::write(VAR, &[2, 0, variable]));
    let functions = (0..FUNCTIONS).flat_map(|function| table::write(FUN, &[function * 7]));
    table::write(FLOW, &[]).into_iter().chain(nodes).chain(variables).chain(functions).collect()
}

/// What is written for each node, one after the other.
fn of_each_node(part: fn(u32) -> Vec<u8>) -> Vec<u8> {
    (0..NODES).flat_map(part).collect()
}

/// A node's wires: port 0 to the node itself, each next port to the node behind.
fn wires(node: u32) -> Vec<u8> {
    (0..PORTS).flat_map(|port| table::write(WIRE, &[node, port, (node + port) % NODES])).collect()
}

/// Variables that a node may read and write.
const ACCESSED: u32 = 13;

/// A variable of a node's lists, by its number there.
fn variable(node: u32, step: u32) -> u32 {
    (node * 2 + step) % VARIABLES
}

/// A function of a node's lists, by its number there.
fn function(node: u32, step: u32) -> u32 {
    (node + step) % FUNCTIONS
}

/// A node's lists: four functions with all arguments, a fifth with two, 13 variables to read and to write.
fn permissions(node: u32) -> Vec<u8> {
    let any = (0..4).flat_map(|step| table::write(ANY, &[node, function(node, step)]));
    let args = (0..2).flat_map(|argument| table::write(ARG, &[node, function(node, 4), argument]));
    let variables =
        |byte| (0..ACCESSED).flat_map(move |step| table::write(byte, &[node, variable(node, step)]));
    any.chain(args).chain(variables(READ)).chain(variables(WRITE)).collect()
}

/// A node's handler.
fn handler(node: u32) -> Vec<u8> {
    let commands = (0..BODY_COMMANDS).flat_map(|position| handler_command(node, position));
    table::write(BODY, &[node]).into_iter().chain(commands).collect()
}

/// The command at a position of a node's handler: one that needs no permission, then one that does, by turns.
fn handler_command(node: u32, position: u32) -> Vec<u8> {
    match position % 2 {
        0 => plain_command(position),
        _ => access(node, position / 2),
    }
}

/// The seven kinds of commands that need no permission, in turn.
fn plain_command(position: u32) -> Vec<u8> {
    let turn = position / 2;
    match turn % 7 {
        0 => table::write(ADD, &[position * 77]),
        1 => table::write(SET, &[position * 1000]),
        2 => table::write(JUMPZ, &[position + 1]),
        3 => table::write(JUMP, &[position + 1]),
        4 => table::write(TAKE, &[]),
        5 => table::write(SEND, &[turn % PORTS]),
        _ => table::write(SKIP, &[]),
    }
}

/// The accesses of a node: writes and reads of its variables by turns, then a call of each of its functions. There are
/// 31 of them; an ADD fills the last turn.
fn access(node: u32, turn: u32) -> Vec<u8> {
    let accessed = variable(node, turn / 2);
    match turn {
        0..=25 if turn % 2 == 0 => table::write(PUT, &[accessed]),
        0..=25 if turn % 4 == 1 => table::write(GET, &[accessed]),
        0..=25 => table::write(PLUS, &[accessed]),
        26..=30 => table::write(CALL, &[function(node, turn - 26)]),
        _ => table::write(ADD, &[turn]),
    }
}
