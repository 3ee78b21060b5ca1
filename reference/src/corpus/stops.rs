//! Jobs that stop: accesses beside each single permission, nodes that are not ready, full queues.

use super::mend::mended;
use super::Job;
use crate::table::{self, *};

/// Nodes 0 and 1 in flow 0, node 2 in flow 1; variables 0 of node 0, 1 of flow 0, 2 global; two functions.
pub const DECLARATIONS: [u8; 36] = [
    FLOW, NODE, NODE, FLOW, NODE, VAR, 0, 0, 1, 0, 0, 0, VAR, 1, 0, 2, 0, 0, 0, VAR, 2, 0, 3, 0, 0, 0, FUN,
    8, 0, 0, 0, FUN, 0, 1, 0, 0,
];

/// The message that node 0 gets, which is the argument of its calls.
const MESSAGE: u32 = 7;

/// Every shared access and call of node 0 beside every single permission that may or may not fit it; then the
/// accesses of its own variable, which need none.
pub fn accesses() -> Vec<Job> {
    let of_variable = |variable| [GET, PLUS, PUT].map(|byte| [byte, variable]);
    let judged = [&of_variable(1)[..], &of_variable(2), &[[CALL, 0], [CALL, 1]]].concat();
    let permissions = permissions();
    let with_each =
        |access| permissions.iter().map(move |permission| access_job(permission, access, MESSAGE));
    let own = of_variable(0).map(|access| access_job(&[], access, MESSAGE));
    judged.into_iter().flat_map(with_each).chain(own).collect()
}

/// None; READ and WRITE of the shared variables, ANY and ARG of both functions, of the first two nodes; ARG with
/// the message and with close numbers.
fn permissions() -> Vec<Vec<u8>> {
    let mut list = vec![vec![]];
    for node in 0..2 {
        for variable in 1..3 {
            list.extend([READ, WRITE].map(|byte| vec![byte, node, variable]));
        }
        for function in 0..2 {
            list.push(vec![ANY, node, function]);
            let arg = |value| table::write(ARG, &[node.into(), function.into(), value]);
            list.extend([MESSAGE, MESSAGE + 1, MESSAGE << 8].map(arg));
        }
    }
    list
}

/// Node 0 takes the message, makes the access and goes on; turns of the others follow.
pub fn access_job(permission: &[u8], access: [u8; 2], message: u32) -> Job {
    let handler = [&[BODY, 0, TAKE][..], &access, &[SEND, 0]].concat();
    let tail = [TURN, 0, TURN, 0, TURN, 0, TURN, 0, TURN, 0, TURN, 2];
    let start = table::write(START, &[0, message]);
    mended([&DECLARATIONS, permission, &handler, &start, &tail].concat())
}

/// A node without a message: at once, behind some turns, when it is idle again, and without a handler.
pub fn not_ready() -> Vec<Job> {
    let start = table::write(START, &[0, MESSAGE]);
    let handler = [BODY, 0, TAKE, PUT, 0];
    let schedules: [&[u8]; 8] = [&[1], &[0, 1], &[0, 0, 2], &[0, 0, 0, 1], &[0; 5], &[2, 0], &[0; 4], &[]];
    let mut jobs = Vec::new();
    for body in [&[][..], &handler] {
        for nodes in schedules {
            let turns: Job = nodes.iter().flat_map(|&node| [TURN, node]).collect();
            jobs.push([&DECLARATIONS, body, &start, &turns].concat());
        }
    }
    jobs
}

/// Sends before a send over port 0, and how many of them the filled node takes: just not full, full, full but for
/// one taken, and one more than there is room for.
const FILLINGS: [(usize, usize); 4] = [(15, 0), (16, 0), (16, 1), (17, 0)];

/// Node 0 fills the queue of a node over port 1 and then sends over port 0, twice: to one target, to several with
/// the full one among them or not, to itself too, to nobody.
pub fn full_queues() -> Vec<Job> {
    let targets: [&[u8]; 7] = [&[1], &[2], &[3], &[1, 2, 3], &[0, 1, 2, 3], &[3, 1], &[]];
    let mut jobs = Vec::new();
    for targets in targets {
        for filled in 1..4 {
            jobs.extend(FILLINGS.map(|(sent, taken)| filling(targets, filled, sent, taken)));
        }
    }
    jobs
}

fn filling(targets: &[u8], filled: u8, sent: usize, taken: usize) -> Job {
    let wires: Job = targets.iter().flat_map(|&target| [WIRE, 0, 0, target]).collect();
    let head = [&[FLOW][..], &[NODE; 4], &wires, &[WIRE, 0, 1, filled, BODY, 0]].concat();
    let sends = [ADD, 1, 0, 0, 0, SEND, 1].repeat(sent);
    let handler = [&head[..], &sends, &[SEND, 0, SEND, 0], &table::write(START, &[0, 1])].concat();
    let turns = [[TURN, 0].repeat(1 + 2 * sent), [TURN, filled].repeat(taken), [TURN, 0].repeat(3)];
    [handler, turns.concat()].concat()
}
