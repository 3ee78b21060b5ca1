//! The paper's worked jobs, K1 to K11, and its two counts.

use super::{each_with, Job};
use crate::generate::dispatched::{without_turns, Dispatched};
use crate::table::*;

/// K1 up to its START.
const K1: [u8; 41] = [
    FLOW, NODE, NODE, VAR, 2, 0, 5, 0, 0, 0, FUN, 9, 0, 0, 0, WIRE, 0, 0, 1, READ, 0, 0, ARG, 1, 0, 7, 0, 0,
    0, BODY, 0, TAKE, PLUS, 0, SEND, 0, BODY, 1, TAKE, CALL, 0,
];

/// K1 with a START value and a first turn; K4 has no READ.
fn k1(has_read: bool, start: u32, first: u8) -> Job {
    let mut job = K1.to_vec();
    if !has_read {
        job.drain(19..22);
    }
    job.extend([START, 0]);
    job.extend(start.to_le_bytes());
    job.extend([TURN, first]);
    job.extend([TURN, 0].repeat(4));
    job.extend([TURN, 1].repeat(4));
    job
}

fn k7() -> Job {
    let head = [FLOW, NODE, WIRE, 0, 0, 0, BODY, 0, SEND, 0, JUMP, 0, START, 0, 1, 0, 0, 0];
    [&head[..], &[TURN, 0].repeat(34)].concat()
}

/// A head and a piece so often.
fn repeated(head: &[u8], piece: &[u8], times: usize) -> Job {
    [head, &piece.repeat(times)].concat()
}

/// K1, K2 (K3 is the same job), K4 to K10, K11 with both bytes; then turns and nodes, at most and one more.
pub fn jobs() -> Vec<Job> {
    vec![
        k1(true, 2, 0),
        k1(true, 3, 0),
        k1(false, 2, 0),
        k1(true, 2, 1),
        k1(true, 4_294_967_294, 0),
        k7(),
        vec![],
        vec![NODE],
        vec![FLOW, VAR],
        vec![FLOW, NODE, BODY, 0, JUMP, 1],
        vec![FLOW, NODE, BODY, 0, JUMP, 2],
        repeated(&[FLOW, NODE], &[TURN, 0], MAX_TURNS),
        repeated(&[FLOW, NODE], &[TURN, 0], MAX_TURNS + 1),
        repeated(&[FLOW], &[NODE], MAX_NODES),
        repeated(&[FLOW], &[NODE], MAX_NODES + 1),
    ]
}

/// K1 without its turns.
pub fn dispatched_k1() -> Job {
    without_turns(&k1(true, 2, 0))
}

/// The worked jobs without their turns: K1, K2, K4, K6 and K7 with budgets about as large as the turns that are made, the
/// others and a flow without nodes with the least and the largest.
pub fn dispatched() -> Vec<Dispatched> {
    let run: [(Job, &[u64]); 5] = [
        (k1(true, 2, 0), &[1, 2, 4, 5, 8, 9, 10, 4_096]),
        (k1(true, 3, 0), &[7, 8, 9, 10]),
        (k1(false, 2, 0), &[2, 3]),
        (k1(true, 4_294_967_294, 0), &[7, 8, 4_096]),
        (k7(), &[33, 34, 35]),
    ];
    let run = run.iter().flat_map(|(job, budgets)| each_with(&[without_turns(job)], budgets));
    let all = jobs();
    let others = [&all[6..12], &all[13..], &[vec![FLOW]]].concat();
    let others: Vec<Job> = others.iter().map(|job| without_turns(job)).collect();
    run.chain(each_with(&others, &[1, 4_096])).collect()
}
