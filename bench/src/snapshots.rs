//! Jobs of 1 to 32 nodes, whose queues end all empty or all full, for what it takes to write a snapshot (01: end picture);
//! and runs of them that are marked in a trace of instructions.

use std::hint::black_box;
use std::sync::atomic::{AtomicU8, Ordering::Relaxed};

use flow_reference::table::{self, *};
use flow_reference::Mode;

use crate::runs::{Bench, Engine};

/// How many nodes the jobs have.
pub const NODES: [u32; 6] = [1, 2, 4, 8, 16, 32];

/// What waits at every node when the run ends.
#[derive(Clone, Copy, Debug, PartialEq, Eq)]
pub enum Queues {
    /// Nothing.
    Empty,
    /// 16 messages.
    Full,
}

impl Queues {
    /// Both, with the words that name them.
    pub const ALL: [(&'static str, Queues); 2] = [("empty", Queues::Empty), ("full", Queues::Full)];
}

/// A job of one flow without variables: node 0 is wired to every node, itself included, and sends to all of them again
/// and again. It has a first message and just as many turns as fill the queues; or neither.
pub fn job(nodes: u32, queues: Queues) -> Vec<u8> {
    let declared = [table::write(FLOW, &[]), table::write(NODE, &[]).repeat(nodes as usize)].concat();
    let wires = (0..nodes).flat_map(|target| table::write(WIRE, &[0, 0, target]));
    let handler = [table::write(BODY, &[0]), table::write(SEND, &[0]), table::write(JUMP, &[0])].concat();
    let job: Vec<u8> = declared.into_iter().chain(wires).chain(handler).collect();
    match queues {
        Queues::Empty => job,
        Queues::Full => {
            [job, table::write(START, &[0, 7]), table::write(TURN, &[0]).repeat(turns())].concat()
        }
    }
}

/// The message is taken; then a SEND for each message of a queue, and a JUMP between two of them.
fn turns() -> usize {
    2 * QUEUE_CAPACITY
}

/// Every such job.
pub fn jobs() -> impl Iterator<Item = Vec<u8>> {
    Queues::ALL.into_iter().flat_map(|(_, queues)| NODES.map(|nodes| job(nodes, queues)))
}

/// The bytes of the snapshot that the run of such a job leaves: 10 for a node, 4 for a waiting message and 1 for its sender.
pub fn bytes(nodes: u32, queues: Queues) -> usize {
    let messages = if queues == Queues::Full { QUEUE_CAPACITY } else { 0 };
    nodes as usize * (10 + 5 * messages)
}

/// Written before and after a run.
static MARK: AtomicU8 = AtomicU8::new(0);

/// Where a marked run stores: a byte before and after it, and its snapshot.
pub struct Addresses {
    pub mark: usize,
    pub snapshot: usize,
}

/// Runs such a job once, bare, between two stores to the mark.
pub fn run_marked(engine: Engine, nodes: u32, queues: Queues) -> Addresses {
    let mut bench = Bench::of(engine, Mode::Unmonitored, job(nodes, queues), 0);
    MARK.store(1, Relaxed);
    black_box(bench.run());
    MARK.store(2, Relaxed);
    Addresses { mark: MARK.as_ptr() as usize, snapshot: bench.buffers.snapshot.as_ptr() as usize }
}
