//! Who sent it (02, S-11): several senders at one node, nodes that send to themselves, full queues, and what waits in the
//! snapshot.

use super::run::{exact, Run, Runs};
use super::worlds::{body, flow, start, turns, wires};
use super::Job;
use crate::table::{self, *};

pub fn jobs() -> Vec<Job> {
    let taken = [orders(), to_themselves(), beside_start(), several_targets()].concat();
    [taken, full_queues(), moving(), numbers(), judged()].concat()
}

/// So many turns of each of these nodes.
fn turns_each(nodes: &[u8], times: usize) -> Job {
    nodes.iter().flat_map(|&node| [TURN, node].repeat(times)).collect()
}

/// A handler that sends its message on, over port 0. That takes four turns: it begins, TAKE, SEND, it finishes.
const SEND_ON: [u8; 3] = [TAKE, SEND, 0];

/// Two and three senders in every order, all of whose messages are taken; then one order with fewer of them taken.
fn orders() -> Vec<Job> {
    let all: [&[u8]; 8] =
        [&[1, 2], &[2, 1], &[1, 2, 3], &[1, 3, 2], &[2, 1, 3], &[2, 3, 1], &[3, 1, 2], &[3, 2, 1]];
    let some = [0, 1, 2].map(|taken| sent_on(&[3, 1, 2], taken));
    all.iter().map(|order| sent_on(order, order.len())).chain(some).collect()
}

/// Node 0 sends its message to nodes 1, 2 and so on, which send it on to the last node in this order. The last node has
/// no handler and takes so many of them.
fn sent_on(order: &[u8], taken: usize) -> Job {
    let last = order.len() as u8 + 1;
    let list: Vec<[u8; 3]> = (1..last).flat_map(|node| [[0, 0, node], [node, 0, last]]).collect();
    let bodies: Job = (0..last).flat_map(|node| body(node, &SEND_ON)).collect();
    let sent = [turns(&[(0, 4)]), turns_each(order, 4)].concat();
    [flow(last + 1), wires(&list), bodies, start(0), sent, turns(&[(last, 2 * taken)])].concat()
}

/// A node that sends to itself: the only one, the last one that there can be, and one that gets messages of another too.
fn to_themselves() -> Vec<Job> {
    let alone = |node: u8| {
        let rest = [wires(&[[node, 0, node]]), body(node, &SEND_ON), start(node), turns(&[(node, 15)])];
        [flow(node + 1), rest.concat()].concat()
    };
    let bodies = [body(1, &SEND_ON), body(0, &[TAKE, SEND, 0, SEND, 0])].concat();
    let head = [flow(2), wires(&[[1, 0, 1], [0, 0, 1]]), bodies, start(0)].concat();
    vec![alone(0), alone(31), [head, turns(&[(0, 5), (1, 14)])].concat()]
}

/// Two flows: in one of them the first message waits or is taken, in the other node 0 sends to itself and to node 1. A
/// first message and a sent one never wait at the same node, as nobody in its flow sends before it is taken.
fn beside_start() -> Vec<Job> {
    let schedules: [&[(u8, usize)]; 5] =
        [&[], &[(0, 3)], &[(0, 3), (2, 1)], &[(2, 4), (0, 3)], &[(0, 8), (2, 4), (3, 1), (1, 1)]];
    let wires = wires(&[[0, 0, 1], [0, 0, 0], [2, 0, 3]]);
    let bodies = [body(0, &SEND_ON), body(2, &SEND_ON)].concat();
    let head = [flow(2), flow(2), wires, bodies, start(2), start(0)].concat();
    schedules.map(|schedule| [&head[..], &turns(schedule)].concat()).to_vec()
}

/// Node 2 sends to all nodes of its flow, over one port, with the wires in two orders; then to one node over two ports.
/// All of the messages but one wait; then those of the other nodes are taken, as far as there are any.
fn several_targets() -> Vec<Job> {
    let lists: [&[[u8; 3]]; 3] = [
        &[[2, 0, 0], [2, 0, 1], [2, 0, 2], [2, 0, 3]],
        &[[2, 0, 3], [2, 0, 2], [2, 0, 1], [2, 0, 0]],
        &[[2, 1, 1], [2, 0, 1]],
    ];
    let schedules: [&[(u8, usize)]; 2] = [&[(2, 4), (1, 1)], &[(2, 5), (1, 1), (0, 2), (3, 2)]];
    let job = |list: &[[u8; 3]], schedule| {
        let handler = body(2, &[TAKE, SEND, 0, SEND, 1]);
        [flow(4), wires(list), handler, start(2), turns(schedule)].concat()
    };
    lists.iter().flat_map(|list| schedules.map(|schedule| job(list, schedule))).collect()
}

/// Wires to node 3 from all nodes: port 1 of node 0, whose port 0 leads to nodes 1 and 2, and port 0 of the others.
fn to_node_3() -> Job {
    wires(&[[0, 0, 1], [0, 0, 2], [0, 1, 3], [1, 0, 3], [2, 0, 3], [3, 0, 3]])
}

/// A queue that three senders fill in turn, or two one behind the other, till each of three finds it full; then the same
/// behind a message that is taken and one that the node sends to itself.
fn full_queues() -> Vec<Job> {
    let in_turn: Vec<u8> = [0, 1, 2].into_iter().cycle().take(QUEUE_CAPACITY).collect();
    let blocks = [[1].repeat(5), [2].repeat(QUEUE_CAPACITY - 5)].concat();
    let mut jobs = Vec::new();
    for senders in [in_turn, blocks] {
        jobs.extend([0, 1, 2].map(|last| filled(&senders, &[(last, 1)])));
        jobs.push(filled(&senders, &[(3, 2), (1, 1)]));
    }
    jobs
}

/// Nodes that send again and again, 0 each time: SEND and JUMP. So node 3 gets messages of these nodes; others follow.
fn filled(senders: &[u8], others: &[(u8, usize)]) -> Job {
    let endless = |node| body(node, &[SEND, 0, JUMP, 0]);
    let bodies = [body(0, &[SEND, 0, SEND, 1, JUMP, 1]), endless(1), endless(2), endless(3)].concat();
    let sent = [turns(&[(0, 2), (1, 1), (2, 1)]), turns_each(senders, 2)].concat();
    [flow(4), to_node_3(), bodies, start(0), sent, turns(others)].concat()
}

/// Queues of 1, 9 and 16 messages, of which the oldest is taken and a new one is sent, again and again.
fn moving() -> Vec<Job> {
    [1, 9, 16].map(moving_behind).to_vec()
}

/// Three nodes that count, in an order that suits no length of a queue: ADD, SEND and JUMP. Node 3, without a handler,
/// takes the oldest message before each of theirs, as soon as so many wait.
fn moving_behind(waiting: usize) -> Job {
    let counting = |node| body(node, &[ADD, 1, 0, 0, 0, SEND, 0, JUMP, 0]);
    let bodies = [body(0, &[SEND, 0, ADD, 1, 0, 0, 0, SEND, 1, JUMP, 1]), counting(1), counting(2)].concat();
    let mut job = [flow(4), to_node_3(), bodies, start(0), turns(&[(0, 2), (1, 1), (2, 1)])].concat();
    for (sent, &sender) in [0, 1, 1, 2, 0, 2, 1].iter().cycle().take(waiting + 24).enumerate() {
        let taken = if sent < waiting { 0 } else { 2 };
        job.extend(turns(&[(3, taken), (sender, 3)]));
    }
    job
}

/// Senders whose numbers have one bit or all, up to the last node that there can be, in two orders. That node sends to
/// them, and between them to node 0, which takes some of the messages.
fn numbers() -> Vec<Job> {
    let senders = [16, 1, 8, 30, 2, 4];
    let list: Vec<[u8; 3]> = senders.iter().flat_map(|&node| [[31, 0, node], [node, 0, 0]]).collect();
    let bodies: Job = senders.iter().flat_map(|&node| body(node, &SEND_ON)).collect();
    let last = [wires(&[[31, 1, 0]]), body(31, &[TAKE, SEND, 0, SEND, 1])].concat();
    let head = [flow(32), wires(&list), last, bodies, start(31), turns(&[(31, 3)])].concat();
    let job = |order: [u8; 6]| {
        let (first, rest) = order.split_at(2);
        [&head[..], &turns_each(first, 4), &turns(&[(31, 1)]), &turns_each(rest, 4), &turns(&[(0, 8)])]
            .concat()
    };
    vec![job(senders), job([4, 2, 30, 8, 1, 16])]
}

/// Nodes 1 and 2 send their own numbers, in either order, to node 3, which may call with 1 alone.
fn judged() -> Vec<Job> {
    let own_number = |node| body(node, &[SET, node, 0, 0, 0, SEND, 0]);
    let bodies = [body(0, &SEND_ON), own_number(1), own_number(2), body(3, &[TAKE, CALL, 0])].concat();
    let list = [wires(&[[0, 0, 1], [0, 0, 2], [1, 0, 3], [2, 0, 3]]), table::write(ARG, &[3, 0, 1])].concat();
    let head = [flow(4), table::write(FUN, &[9]), list, bodies, start(0), turns(&[(0, 4)])].concat();
    [[1, 2], [2, 1]].map(|order| [&head[..], &turns_each(&order, 4), &turns(&[(3, 8)])].concat()).to_vec()
}

/// Messages that wait, and every queue full, with snapshot buffers about as long as the longest snapshot; the first also
/// with one that was long enough before senders were in it.
pub fn beside_buffers(runs: &mut Runs) -> Vec<Run> {
    let (few, most) = (sent_on(&[3, 1, 2], 1), fullest());
    let lengths =
        [(&few, 2_624), (&few, 3_135), (&few, 3_136), (&few, 3_137), (&most, 3_135), (&most, 3_136)];
    let with = |(job, snapshot): (&Job, usize)| {
        let [trace, _, work] = exact(job);
        runs.both(job, [trace, snapshot, work])
    };
    lengths.into_iter().flat_map(with).collect()
}

/// All 32 queues full, each of two senders: 7 messages of the flow's first node, then 9 of the node before.
fn fullest() -> Job {
    let firsts: Vec<u8> = (0..MAX_NODES as u8).step_by(4).collect();
    let next = |node: u8| node / 4 * 4 + (node + 1) % 4;
    let list: Vec<[u8; 3]> =
        (0..MAX_NODES as u8).flat_map(|node| [[node / 4 * 4, 0, node], [node, 1, next(node)]]).collect();
    let bodies: Job = firsts.iter().flat_map(|&first| bodies_of_flow(first)).collect();
    let variables = [VAR, 2, 0, 1, 2, 3, 4].repeat(MAX_VARIABLES);
    let mut job = [flow(4).repeat(MAX_FLOWS), variables, wires(&list), bodies].concat();
    job.extend(firsts.iter().flat_map(|&first| start(first)));
    for first in firsts {
        let others = [first + 1, first + 2, first + 3];
        job.extend([turns(&[(first, 14 + 4)]), turns_each(&others, 2)].concat());
        job.extend([turns(&[(first, 9)]), turns_each(&others, 9)].concat());
    }
    job
}

/// The handlers of a flow in which all queues get full. If its message is not 0, the first node sends 0 to all, 8 times;
/// else it does what the others do: it sends a number to the next node, 9 times.
fn bodies_of_flow(first: u8) -> Job {
    let to_all = [&[TAKE, JUMPZ, 12, SET, 0, 0, 0, 0][..], &[SEND, 0].repeat(8), &[JUMP, 22]].concat();
    let to_next = |node: u8| [&[SET, node, 3, 2, 1][..], &[SEND, 1].repeat(9)].concat();
    let others = (first + 1..first + 4).flat_map(|node| body(node, &to_next(node)));
    body(first, &[to_all, to_next(first)].concat()).into_iter().chain(others).collect()
}
