//! Choices of the dispatcher (02, S-2): which node is ready, where the search begins and goes round, how many nodes are
//! examined, and how a run ends at a choice.

use std::collections::BTreeSet;

use super::worlds::{body, flow, start, wires};
use super::{each_with, senders, stops, Job};
use crate::generate::dispatched::{without_turns, Dispatched};
use crate::table::*;

pub fn jobs() -> Vec<Dispatched> {
    let few = [lonely(), without_handler(), first_messages(), rings(), all_busy()].concat();
    [few, beside_endless(), taken_from(), forbidden()].concat()
}

/// One node of several has something to do, which takes four turns: the last of them is made with an empty queue, and
/// all others are examined again and again. Budgets for three of these turns, for all, and for one more.
fn lonely() -> Vec<Dispatched> {
    let job = |(nodes, node)| [flow(nodes), body(node, &[SKIP, SKIP]), start(node)].concat();
    let few = each_with(&[(1, 0), (2, 0), (2, 1), (3, 1)].map(job), &[3, 4, 5]);
    [few, each_with(&[(32, 0), (32, 15), (32, 31)].map(job), &[5])].concat()
}

/// A node without a handler, and one whose handler is empty: it begins and finishes.
fn without_handler() -> Vec<Dispatched> {
    let jobs = [[flow(2), start(1)].concat(), [flow(2), body(1, &[]), start(1)].concat()];
    each_with(&jobs, &[1, 2, 3])
}

/// First messages in flows of two nodes each, but not at node 0, and START commands that fall and rise.
fn first_messages() -> Vec<Dispatched> {
    let orders: [&[u8]; 4] = [&[5, 3, 1], &[2, 7, 4], &[3, 6], &[7]];
    let job = |nodes: &[u8]| {
        let starts: Job = nodes.iter().flat_map(|&node| start(node)).collect();
        [flow(2).repeat(4), body(3, &[SKIP]), starts].concat()
    };
    each_with(&orders.map(job), &[2, 4, 16])
}

/// Nodes that send their message on to the next one, the last to the first. Each is still at work when the next begins.
fn rings() -> Vec<Dispatched> {
    let ring = |nodes: u8| {
        let list: Vec<[u8; 3]> = (0..nodes).map(|node| [node, 0, (node + 1) % nodes]).collect();
        let bodies: Job = (0..nodes).flat_map(|node| body(node, &[TAKE, SEND, 0])).collect();
        [flow(nodes), wires(&list), bodies, start(nodes - 1)].concat()
    };
    [each_with(&[1, 2, 3].map(ring), &[5, 20]), each_with(&[ring(32)], &[36])].concat()
}

/// Flows of 1, 2 and 4 nodes with one node each, the first, the last or one between, that is never at its end: these are
/// served in turn.
fn all_busy() -> Vec<Dispatched> {
    let shapes = [(1, 0, 3), (1, 0, 8), (2, 1, 3), (4, 2, 8)];
    let job = |(nodes, busy, flows): (u8, u8, u8)| {
        let all: Vec<u8> = (0..flows).map(|flow| flow * nodes + busy).collect();
        let bodies: Job = all.iter().flat_map(|&node| body(node, &[SKIP, JUMP, 0])).collect();
        [flow(nodes).repeat(flows.into()), bodies, all.iter().flat_map(|&node| start(node)).collect()]
            .concat()
    };
    each_with(&shapes.map(job), &[7, 25])
}

/// A node that sends to the others without end, in front of them, behind them or between. The others do nothing with
/// what they take, need more turns for it than there are between two messages, or never end: then their queues get full.
fn beside_endless() -> Vec<Dispatched> {
    let handlers: [&[u8]; 3] = [&[], &[TAKE, SKIP, SKIP], &[JUMP, 0]];
    let mut jobs = Vec::new();
    for handler in handlers {
        for sender in 0..3 {
            let others = (0..3).filter(|&node| node != sender);
            let list: Vec<[u8; 3]> = others.clone().map(|node| [sender, 0, node]).collect();
            let bodies: Job = others.flat_map(|node| body(node, handler)).collect();
            let endless = body(sender, &[SEND, 0, JUMP, 0]);
            jobs.push([flow(3), wires(&list), endless, bodies, start(sender)].concat());
        }
    }
    [each_with(&jobs, &[30]), each_with(&jobs[6..7], &[103, 104])].concat()
}

/// The jobs of several senders without their turns, each once.
fn taken_from() -> Vec<Dispatched> {
    let jobs: BTreeSet<Job> = senders::jobs().iter().map(|job| without_turns(job)).collect();
    jobs.into_iter().map(|job| Dispatched { job, budget: 24 }).collect()
}

/// A read, a write and a call without a permission and with it. Budgets for the turns before it, and for all.
fn forbidden() -> Vec<Dispatched> {
    let accesses = [([GET, 1], [READ, 0, 1]), ([PUT, 2], [WRITE, 0, 2]), ([CALL, 0], [ANY, 0, 0])];
    let job = |(access, permission): ([u8; 2], [u8; 3])| {
        [&[][..], &permission].map(|list| without_turns(&stops::access_job(list, access, 7)))
    };
    each_with(&accesses.map(job).concat(), &[2, 3, 9])
}
