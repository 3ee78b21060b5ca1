//! The largest states and the longest runs.

use super::Job;
use crate::table::{self, *};

/// 32 nodes with so many waiting messages each and 64 variables; with 16 the snapshot is as long as can be.
fn waiting(messages: usize) -> Job {
    let mut job = [&[FLOW][..], &[NODE; 4]].concat().repeat(MAX_FLOWS);
    for number in 0..MAX_VARIABLES as u32 {
        job.extend(table::write(VAR, &[2, 0, number << 25 | number]));
    }
    let first_nodes: Vec<u8> = (0..MAX_NODES as u8).step_by(4).collect();
    for &node in &first_nodes {
        job.extend((node..node + 4).flat_map(|target| [WIRE, node, 0, target]));
    }
    for &node in &first_nodes {
        job.extend([BODY, node]);
        job.extend([ADD, node, 1, 0, 1, SEND, 0].repeat(messages));
    }
    for &node in &first_nodes {
        job.extend(table::write(START, &[node.into(), 1 << 31]));
    }
    for &node in &first_nodes {
        job.extend([TURN, node].repeat(1 + 2 * messages));
    }
    job
}

/// Every queue full, every variable there.
pub fn fullest() -> Job {
    waiting(QUEUE_CAPACITY)
}

/// Queues empty, nearly full and full.
pub fn states() -> Vec<Job> {
    [0, 1, 15, 16].map(waiting).to_vec()
}

/// Two nodes that send a message to and fro, with a read and a write each round; node 2 calls what no list permits.
const HEAD: [&[u8]; 9] = [
    &[FLOW, NODE, NODE, FLOW, NODE],
    &[VAR, 2, 0, 5, 0, 0, 0, FUN, 9, 0, 0, 0],
    &[WIRE, 0, 0, 1, WIRE, 1, 0, 0],
    &[READ, 0, 0, WRITE, 1, 0],
    &[BODY, 0, TAKE, PLUS, 0, SEND, 0],
    &[BODY, 1, TAKE, ADD, 1, 0, 0, 0, PUT, 0, SEND, 0],
    &[BODY, 2, CALL, 0],
    &[START, 0, 2, 0, 0, 0],
    &[START, 2, 4, 0, 0, 0],
];

/// So many turns: of the first two nodes, then the last of these.
fn long(turns: usize, last: &[u8]) -> Job {
    let round = [0, 0, 0, 0, 0, 1, 1, 1, 1, 1, 1];
    let nodes = round.iter().cycle().take(turns - last.len()).chain(last);
    [HEAD.concat(), nodes.flat_map(|&node| [TURN, node]).collect()].concat()
}

/// 4,096 turns, all permitted; the last one forbidden; and the last one of a node that is not ready.
pub fn long_runs() -> Vec<Job> {
    vec![long(MAX_TURNS, &[]), long(MAX_TURNS, &[2, 2]), long(MAX_TURNS - 1, &[1])]
}
