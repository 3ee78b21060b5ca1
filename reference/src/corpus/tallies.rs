//! The tally of each node (02, S-12): what is sent to several nodes, over several ports, to nobody and to the sender, first
//! messages that nobody takes, and queues that differ from node to node; with each stop.

use super::run::{Run, Runs};
use super::worlds::{body, flow, start, turns, wires};
use super::Job;
use crate::generate::dispatched::Dispatched;
use crate::table::{self, *};

/// Pairs of written turns, then dispatched pairs.
pub fn runs(runs: &mut Runs) -> Vec<Run> {
    let written = runs.pairs(&written());
    let dispatched = runs.dispatched(&dispatched());
    [written, dispatched].concat()
}

fn written() -> Vec<Job> {
    let with_turns: [(Job, &[(u8, usize)]); 10] = [
        (several_targets(), &[(1, 3), (0, 1), (1, 1)]),
        (two_ports(), &[(0, 6), (2, 3)]),
        (one_way(), &[(0, 4), (1, 5), (2, 3)]),
        (to_itself(), &[(1, 8), (0, 2)]),
        (first_messages(), &[(2, 2), (0, 1)]),
        (first_messages(), &[]),
        (judged(), &[(0, 4), (1, 7), (2, 1)]),
        (full_beside_empty(), &[(0, 19)]),
        (different_queues(), &[(0, 9)]),
        (last_nodes(), &[(31, 3), (30, 4), (31, 2)]),
    ];
    with_turns.map(|(job, list)| [job, turns(list)].concat()).to_vec()
}

/// Stops 0, 1, 3 and 4.
fn dispatched() -> Vec<Dispatched> {
    let with_budgets = [
        (several_targets(), 7),
        (one_way(), 20),
        (first_messages(), 2),
        (judged(), 30),
        (full_by_dispatcher(), 200),
        (different_queues(), 11),
    ];
    with_budgets.map(|(job, budget)| Dispatched { job, budget }).to_vec()
}

/// One port that leads to three nodes, the sender among them, and not to the one between.
fn several_targets() -> Job {
    [flow(4), wires(&[[1, 2, 3], [1, 2, 0], [1, 2, 1]]), body(1, &[SEND, 2]), start(1)].concat()
}

/// Two ports that lead to one node, a third to another, and one that leads nowhere.
fn two_ports() -> Job {
    let handler = body(0, &[SEND, 0, SEND, 3, SEND, 1, SEND, 2]);
    [flow(3), wires(&[[0, 3, 2], [0, 0, 2], [0, 1, 1]]), handler, start(0)].concat()
}

/// Node 0 sends to node 1 and that to node 2, over other ports; nobody sends back, and both also send to nobody, each over
/// the port that the other one's wire has.
fn one_way() -> Job {
    let bodies = [body(0, &[SEND, 0, SEND, 1]), body(1, &[SEND, 1, SEND, 0, SEND, 1])].concat();
    [flow(3), wires(&[[0, 0, 1], [1, 1, 2]]), bodies, start(0)].concat()
}

/// A node that sends to itself over two ports; over one of them to another as well.
fn to_itself() -> Job {
    let list = wires(&[[1, 0, 1], [1, 1, 0], [1, 1, 1]]);
    [flow(2), list, body(1, &[SEND, 0, SEND, 1]), start(1)].concat()
}

/// First messages in three of four flows, of first and last nodes, and none in the first.
fn first_messages() -> Job {
    [flow(2).repeat(4), start(7), start(2), start(5)].concat()
}

/// A read, a write and a call with the number of a port that is wired, and a SEND behind them. The call is not permitted.
fn judged() -> Job {
    let declarations = [table::write(VAR, &[2, 0, 5]), table::write(FUN, &[9])].concat();
    let lists = vec![READ, 1, 0, WRITE, 1, 0];
    let bodies = [body(0, &[SEND, 0, SEND, 0]), body(1, &[GET, 0, PUT, 0, CALL, 0, SEND, 0])].concat();
    [flow(3), declarations, wires(&[[0, 0, 1], [1, 0, 2]]), lists, bodies, start(0)].concat()
}

/// A queue gets full over port 1; then a SEND over port 0 would reach it and one that is empty.
fn full_beside_empty() -> Job {
    let handler = [&[SEND, 1].repeat(QUEUE_CAPACITY)[..], &[SEND, 0]].concat();
    [flow(3), wires(&[[0, 0, 1], [0, 0, 2], [0, 1, 2]]), body(0, &handler), start(0)].concat()
}

/// A node that sends to two others without end. One of them takes all of its messages, the other one never ends, and its
/// queue gets full.
fn full_by_dispatcher() -> Job {
    let bodies = [body(0, &[SEND, 0, JUMP, 0]), body(1, &[JUMP, 0])].concat();
    [flow(3), wires(&[[0, 0, 1], [0, 0, 2]]), bodies, start(0)].concat()
}

/// Queues of 0, 3, 1, 2 and 0 messages, with values whose bytes could be counts, in front of a variable.
fn different_queues() -> Job {
    let sends = [SEND, 1, SEND, 3, SEND, 2, SEND, 1, SEND, 1, SEND, 3];
    let handler = body(0, &[&[SET, 3, 2, 1, 4][..], &sends].concat());
    let variable = table::write(VAR, &[1, 0, 0x0102_0304]);
    [flow(5), variable, wires(&[[0, 1, 1], [0, 2, 2], [0, 3, 3]]), handler, start(0)].concat()
}

/// The last two nodes that there can be, over the last port.
fn last_nodes() -> Job {
    let bodies = [body(31, &[SEND, 3]), body(30, &[SEND, 3, SEND, 3])].concat();
    [flow(32), wires(&[[31, 3, 30], [31, 3, 31], [30, 3, 31]]), bodies, start(31)].concat()
}
