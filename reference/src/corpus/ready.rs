//! How many nodes are ready (02, S-4): sends that wake several nodes, one or none, nodes that finish with and without
//! waiting messages. In the end nobody is ready, and nobody is examined for that.

use super::worlds::{body, flow, start, wires};
use super::{each_with, Job};
use crate::generate::dispatched::Dispatched;
use crate::table::*;

/// A job, and the turns that it makes till nobody is ready.
type Ending = (Job, u64);

/// Each job with a budget for all of its turns, and for one more.
pub fn jobs() -> Vec<Dispatched> {
    let all = [to_all(), sent_twice(), to_itself(), several_waiting(), to_none(), flows()].concat();
    all.into_iter().flat_map(|(job, turns)| each_with(&[job], &[turns, turns + 1])).collect()
}

/// Ends at once if the message is 0; else it sends 0 over port 0, so often.
fn zeros(node: u8, times: usize) -> Job {
    let end = 3 + times as u8;
    [&body(node, &[TAKE, JUMPZ, end, SET, 0, 0, 0, 0]), &[SEND, 0].repeat(times)[..]].concat()
}

/// Of 32 nodes the first or the last sends to all others, or one between to itself as well.
fn to_all() -> Vec<Ending> {
    let job = |sender: u8, is_target: fn(u8) -> bool| {
        let targets = (0..MAX_NODES as u8).filter(|&node| is_target(node));
        let list: Vec<[u8; 3]> = targets.map(|node| [sender, 0, node]).collect();
        [flow(MAX_NODES as u8), wires(&list), zeros(sender, 1), start(sender)].concat()
    };
    vec![(job(0, |node| node != 0), 68), (job(31, |node| node != 31), 68), (job(17, |_| true), 72)]
}

/// Two messages for one node: of two senders, when the first one waits; of one sender, when the node is at work and no
/// message waits.
fn sent_twice() -> Vec<Ending> {
    let bodies: Job = (0..3).flat_map(|node| body(node, &[SEND, 0])).collect();
    let two = [flow(4), wires(&[[0, 0, 1], [0, 0, 2], [1, 0, 3], [2, 0, 3]]), bodies, start(0)].concat();
    let bodies = [body(0, &[SEND, 0, SEND, 0]), body(1, &[SKIP, SKIP])].concat();
    let one = [flow(2), wires(&[[0, 0, 1]]), bodies, start(0)].concat();
    vec![(two, 13), (one, 12)]
}

/// A node that sends itself one less each time, alone and beside idle ones; and one that sends itself two messages.
fn to_itself() -> Vec<Ending> {
    let alone =
        |nodes, node, handler: Job| [flow(nodes), wires(&[[node, 0, node]]), handler, start(node)].concat();
    let down = |node| body(node, &[TAKE, JUMPZ, 4, ADD, 255, 255, 255, 255, SEND, 0]);
    vec![(alone(1, 0, down(0)), 46), (alone(3, 1, down(1)), 46), (alone(2, 1, zeros(1, 2)), 15)]
}

/// Three messages for a node without a handler, behind the sender and before it: it finishes while one waits, and at last
/// while none does.
fn several_waiting() -> Vec<Ending> {
    let job = |[sender, target]: [u8; 2]| {
        let handler = body(sender, &[SEND, 0].repeat(3));
        [flow(2), wires(&[[sender, 0, target]]), handler, start(sender)].concat()
    };
    [[0, 1], [1, 0]].map(|nodes| (job(nodes), 11)).to_vec()
}

/// Sends over ports without a wire.
fn to_none() -> Vec<Ending> {
    vec![([flow(2), wires(&[[0, 1, 1]]), body(0, &[SEND, 0, SEND, 3]), start(0)].concat(), 4)]
}

/// As many nodes ready at the start as there can be, one in each flow, which sends to the three others.
fn flows() -> Vec<Ending> {
    let firsts: Vec<u8> = (0..MAX_NODES as u8).step_by(4).collect();
    let list: Vec<[u8; 3]> =
        firsts.iter().flat_map(|&first| [1, 2, 3].map(|other| [first, 0, first + other])).collect();
    let bodies: Job = firsts.iter().flat_map(|&first| body(first, &[SEND, 0])).collect();
    let starts: Job = firsts.iter().flat_map(|&first| start(first)).collect();
    vec![([flow(4).repeat(MAX_FLOWS), wires(&list), bodies, starts].concat(), 72)]
}
