//! Two jobs with as many REPLY commands as a job can have, 128, for what it takes to answer a call. Both have 4,096
//! turns, every call has a REPLY, and ANY permits it. Each job is also there without its REPLY commands, where the
//! same calls get FUN's answer, and both without their turns, so that decoding can be told from answering.

use flow_reference::table::{self, *};

use crate::lists::{call, with_turns};

/// Whose the replies are.
#[derive(Clone, Copy, Debug, PartialEq, Eq)]
pub enum Shape {
    /// Of 32 functions, four each.
    Spread,
    /// Of one function.
    Single,
}

/// A job of a shape, with or without its REPLY commands, with or without its turns.
#[derive(Clone, Copy, Debug, PartialEq, Eq)]
pub struct Form {
    pub shape: Shape,
    pub replies: bool,
    pub turns: bool,
}

/// All forms with the words that name them.
pub const FORMS: [(&str, Form); 8] = [
    ("spread-replies", Form { shape: Shape::Spread, replies: true, turns: true }),
    ("spread-plain", Form { shape: Shape::Spread, replies: false, turns: true }),
    ("spread-replies-none", Form { shape: Shape::Spread, replies: true, turns: false }),
    ("spread-plain-none", Form { shape: Shape::Spread, replies: false, turns: false }),
    ("single-replies", Form { shape: Shape::Single, replies: true, turns: true }),
    ("single-plain", Form { shape: Shape::Single, replies: false, turns: true }),
    ("single-replies-none", Form { shape: Shape::Single, replies: true, turns: false }),
    ("single-plain-none", Form { shape: Shape::Single, replies: false, turns: false }),
];

impl Form {
    /// The form that a word names.
    pub fn named(word: &str) -> Option<Form> {
        FORMS.iter().find(|(name, _)| *name == word).map(|&(_, form)| form)
    }

    /// The job's bytes.
    pub fn job(self) -> Vec<u8> {
        let [declarations, replies, rest] = match self.shape {
            Shape::Spread => spread(),
            Shape::Single => single(),
        };
        let replies = if self.replies { replies } else { Vec::new() };
        let job = [declarations, replies, rest].concat();
        if self.turns {
            return with_turns(job);
        }
        job
    }
}

const FUNCTIONS: u32 = MAX_FUNCTIONS as u32;
const REPLIES: u32 = MAX_REPLIES as u32;

/// Functions that each node of the job with spread replies calls.
const CALLED: u32 = 4;
const NODES: u32 = FUNCTIONS / CALLED;

/// Arguments with a reply, of every function.
const ARGUMENTS: [u32; (REPLIES / FUNCTIONS) as usize] = [10, 20, 300, 4_000];

/// Declarations, replies and the rest of the job of 32 functions. Each of eight nodes calls four of them with their
/// four arguments, again and again. Of the 4,096 turns 1,977 are calls.
fn spread() -> [Vec<u8>; 3] {
    let nodes = table::write(NODE, &[]).repeat(NODES as usize);
    let functions = (0..FUNCTIONS).flat_map(|function| table::write(FUN, &[function]));
    let declarations = table::write(FLOW, &[]).into_iter().chain(nodes).chain(functions).collect();
    let of_function = |function| {
        ARGUMENTS.map(|argument| table::write(REPLY, &[function, argument, argument + 1])).concat()
    };
    let wires = (1..NODES).flat_map(|target| table::write(WIRE, &[0, 0, target]));
    let lists = (0..FUNCTIONS).flat_map(|function| table::write(ANY, &[function / CALLED, function]));
    let rest = wires.chain(lists).chain((0..NODES).flat_map(handler)).chain(table::write(START, &[0, 2]));
    [declarations, (0..FUNCTIONS).flat_map(of_function).collect(), rest.collect()]
}

/// A node's handler: it sends, which wakes the others if it is node 0, and calls without end.
fn handler(node: u32) -> Vec<u8> {
    let functions = CALLED * node..CALLED * (node + 1);
    let calls = functions.flat_map(|function| ARGUMENTS.map(|argument| call(function, argument)));
    let body = [table::write(BODY, &[node]), table::write(SEND, &[0])].concat();
    [body, calls.flatten().collect(), table::write(JUMP, &[1])].concat()
}

/// The calls of the handler in the job of one function.
const CALLS: u32 = 31;

/// Declarations, replies and the rest of the job of one function. One node calls it with 31 arguments, from the first
/// reply's to the last one's, again and again. Of the 4,096 turns 2,015 are calls.
fn single() -> [Vec<u8>; 3] {
    let declarations = [vec![FLOW, NODE], table::write(FUN, &[9])].concat();
    let replies = (0..REPLIES).flat_map(|number| table::write(REPLY, &[0, 8 * number, number]));
    let arguments = (0..CALLS).map(|number| 8 * (number * (REPLIES - 1) / (CALLS - 1)));
    let calls = arguments.flat_map(|argument| call(0, argument));
    let handler = table::write(BODY, &[0]).into_iter().chain(calls).chain(table::write(JUMP, &[0]));
    let rest = table::write(ANY, &[0, 0]).into_iter().chain(handler).chain(table::write(START, &[0, 2]));
    [declarations, replies.collect(), rest.collect()]
}
