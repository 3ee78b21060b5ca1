//! Dispatched runs, for what a choice takes: of the script's job without its turns, and of a job with one node at work,
//! beside 31 idle ones and alone. Each has a budget for all of its turns, and one for its first turn alone.

use flow_reference::table::{self, *};

use crate::job;

/// Which job is dispatched.
#[derive(Clone, Copy, Debug, PartialEq, Eq)]
pub enum Shape {
    /// The script's: three nodes that keep one message going round.
    Script,
    /// Node 0 counts down, and 31 nodes are idle; in the end nobody is ready.
    Idle,
    /// The same node alone.
    Lone,
}

/// A job and its budget.
#[derive(Clone, Copy, Debug, PartialEq, Eq)]
pub struct Dispatched {
    pub shape: Shape,
    pub budget: u64,
}

/// The largest budget.
pub const MOST: u64 = MAX_TURNS as u64;

/// All of them with the words that name them.
pub const DISPATCHED: [(&str, Dispatched); 6] = [
    ("dispatched", Dispatched { shape: Shape::Script, budget: MOST }),
    ("dispatched-one", Dispatched { shape: Shape::Script, budget: 1 }),
    ("idle", Dispatched { shape: Shape::Idle, budget: MOST }),
    ("idle-one", Dispatched { shape: Shape::Idle, budget: 1 }),
    ("lone", Dispatched { shape: Shape::Lone, budget: MOST }),
    ("lone-one", Dispatched { shape: Shape::Lone, budget: 1 }),
];

impl Dispatched {
    /// The one that a word names.
    pub fn named(word: &str) -> Option<Dispatched> {
        DISPATCHED.iter().find(|(name, _)| *name == word).map(|&(_, dispatched)| dispatched)
    }

    /// The job's bytes.
    pub fn job(self) -> Vec<u8> {
        match self.shape {
            Shape::Script => job::without_turns(),
            Shape::Idle => counting_down(MAX_NODES),
            Shape::Lone => counting_down(1),
        }
    }
}

/// From which number node 0 counts down, in three turns each: ADD, JUMPZ and JUMP.
const FIRST: u32 = 1_000;

/// A job of so many nodes: node 0 counts down and finishes, the others get no message.
fn counting_down(nodes: usize) -> Vec<u8> {
    let declared = [table::write(FLOW, &[]), table::write(NODE, &[]).repeat(nodes)].concat();
    let count = [table::write(SET, &[FIRST]), table::write(ADD, &[u32::MAX])].concat();
    let back = [table::write(JUMPZ, &[4]), table::write(JUMP, &[1])].concat();
    [declared, table::write(BODY, &[0]), count, back, table::write(START, &[0, 7])].concat()
}
