//! The script's job without its turns: one flow of three nodes that keep one message going round.
//!
//! Node 0 sends to nodes 1 and 2, node 2 sends back to node 0. The handlers have every handler command,
//! jumps taken and not taken, variables shared and not shared. Every access is permitted.

use flow_reference::table::{self, *};

/// A command byte and its operands.
type Command = (u8, &'static [u32]);

/// Variable 0 is global, 1 is the flow's, 2 is node 1's own. Function 0 answers 9, function 1 answers 0.
const DECLARATIONS: &[Command] = &[
    (FLOW, &[]),
    (NODE, &[]),
    (NODE, &[]),
    (NODE, &[]),
    (VAR, &[2, 0, 5]),
    (VAR, &[1, 0, 1]),
    (VAR, &[0, 1, 1]),
    (FUN, &[9]),
    (FUN, &[0]),
    (WIRE, &[0, 0, 1]),
    (WIRE, &[0, 0, 2]),
    (WIRE, &[2, 0, 0]),
];

/// Node 1 may call function 0 with all arguments, node 2 function 1 with four, of which 7 is used.
const PERMISSIONS: &[Command] = &[
    (ANY, &[1, 0]),
    (ARG, &[2, 1, 5]),
    (ARG, &[2, 1, 6]),
    (ARG, &[2, 1, 7]),
    (ARG, &[2, 1, 8]),
    (READ, &[0, 0]),
    (READ, &[1, 1]),
    (READ, &[2, 1]),
    (WRITE, &[1, 0]),
    (WRITE, &[1, 1]),
];

/// Adds the global variable to the message and sends the sum to both other nodes.
const NODE_0: &[Command] = &[(BODY, &[0]), (TAKE, &[]), (PLUS, &[0]), (SEND, &[0])];

/// Calls with the message, stores the answer, and counts on in the flow's and in its own variable.
const NODE_1: &[Command] = &[
    (BODY, &[1]),
    (TAKE, &[]),
    (CALL, &[0]),
    (PUT, &[0]),
    (JUMPZ, &[5]),
    (SKIP, &[]),
    (GET, &[1]),
    (ADD, &[3]),
    (PUT, &[1]),
    (PLUS, &[2]),
    (PUT, &[2]),
];

/// Calls with 7, whatever the message, and sends the flow's variable back.
const NODE_2: &[Command] = &[
    (BODY, &[2]),
    (TAKE, &[]),
    (JUMPZ, &[3]),
    (SET, &[0]),
    (JUMPZ, &[5]),
    (SKIP, &[]),
    (ADD, &[7]),
    (CALL, &[1]),
    (GET, &[1]),
    (SEND, &[0]),
    (JUMP, &[10]),
];

const START_MESSAGE: &[Command] = &[(START, &[0, 2])];

/// The job's bytes, without turns.
pub fn without_turns() -> Vec<u8> {
    let parts = [DECLARATIONS, PERMISSIONS, NODE_0, NODE_1, NODE_2, START_MESSAGE];
    parts.concat().iter().flat_map(|(byte, operands)| table::write(*byte, operands)).collect()
}

/// The job with a turn for each of these nodes.
pub fn with_turns(nodes: &[u8]) -> Vec<u8> {
    let turns = nodes.iter().flat_map(|&node| table::write(TURN, &[u32::from(node)]));
    without_turns().into_iter().chain(turns).collect()
}
