//! Permissions in long lists, and those of the last node, variables and function that there can be.

use super::mend::mended;
use super::worlds::{behind, full};
use super::Job;
use crate::table::{self, *};

/// As many ARG commands as may be: called with the first of their arguments, some between, the last, and others.
pub fn long_lists() -> Vec<Job> {
    let args: Job = (1..=MAX_ARGS as u32).flat_map(|value| table::write(ARG, &[0, 0, value])).collect();
    let job = |message: u32| {
        let head = [FLOW, NODE, FUN, 1, 2, 3, 4];
        let start = table::write(START, &[0, message]);
        [&head, &args[..], &[BODY, 0, TAKE, CALL, 0], &start, &[TURN, 0].repeat(4)].concat()
    };
    [0, 1, 2, 100, 128, 255, 256, 257].map(job).to_vec()
}

/// The last node's accesses: of a global variable, of its flow's last one, of its own and of the last function.
const HANDLER: [u8; 15] = [BODY, 31, TAKE, PLUS, 62, PUT, 55, PUT, 63, GET, 55, CALL, 31, SEND, 3];

/// What these accesses need, with the message 7: 7 and the variable's start, 5, are the argument.
pub const NEEDED: [&[u8]; 4] =
    [&[READ, 31, 62], &[WRITE, 31, 55], &[READ, 31, 55], &[ARG, 31, 31, 12, 0, 0, 0]];

/// With every permission that is needed, and without each of them; then with close ones instead of the last.
pub fn last_numbers() -> Vec<Job> {
    let mut lists = vec![NEEDED.concat()];
    for left_out in 0..NEEDED.len() {
        lists.push([NEEDED[..left_out].concat(), NEEDED[left_out + 1..].concat()].concat());
    }
    for call in [[ANY, 31, 31], [ANY, 30, 31], [ANY, 31, 30]] {
        lists.push([&NEEDED[..3].concat()[..], &call].concat());
    }
    lists.iter().map(|list| last_node(list)).collect()
}

/// The accesses of the last node with these permissions.
pub fn last_node(permissions: &[u8]) -> Job {
    last_node_with(&[], permissions)
}

/// The same with these replies.
pub fn last_node_with(replies: &[u8], permissions: &[u8]) -> Job {
    let wires = [WIRE, 31, 3, 28, WIRE, 31, 3, 31];
    let start = table::write(START, &[31, 7]);
    let turns = [[TURN, 31].repeat(9), [TURN, 28].repeat(2), [TURN, 31].repeat(2)].concat();
    mended(behind(&full(), &[replies, &wires, permissions, &HANDLER, &start, &turns].concat()))
}
