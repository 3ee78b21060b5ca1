//! Two jobs with as many ARG and SPAN commands as a job can have, 128 of each, for what it takes to judge a call
//! when the lists are long. Both have 4,096 turns and all their calls are permitted, so that the monitored and the
//! bare run make the same turns.

use flow_reference::outcome::kind;
use flow_reference::table::{self, *};
use flow_reference::{decode, Entry, Mode};

use crate::script::schedule;

/// Nodes of the job with spread lists, and functions that each of them calls.
const NODES: u32 = 16;
const CALLED: u32 = 4;
const FUNCTIONS: u32 = MAX_FUNCTIONS as u32;

/// The lists of 16 nodes: each may call four functions with four commands each, two ARG and two SPAN. Every node
/// makes 16 calls, one for each of its commands, again and again. Of the 4,096 turns 1,969 are calls.
pub fn spread() -> Vec<u8> {
    let nodes = table::write(NODE, &[]).repeat(NODES as usize);
    let functions = (0..FUNCTIONS).flat_map(|function| table::write(FUN, &[function]));
    let wires = (1..NODES).flat_map(|target| table::write(WIRE, &[0, 0, target]));
    let head = table::write(FLOW, &[]).into_iter().chain(nodes).chain(functions).chain(wires);
    let lists = (0..NODES).flat_map(|node| functions_of(node).flat_map(move |called| list(node, called)));
    let job = head.chain(lists).chain((0..NODES).flat_map(handler));
    with_turns(job.chain(table::write(START, &[0, 2])).collect())
}

/// The functions that a node calls.
fn functions_of(node: u32) -> impl Iterator<Item = u32> {
    (0..CALLED).map(move |step| (node * CALLED + step) % FUNCTIONS)
}

/// A node's commands for a function.
fn list(node: u32, function: u32) -> Vec<u8> {
    let args = [10, 20].map(|argument| table::write(ARG, &[node, function, argument]));
    let spans = [[100, 199], [300, 399]].map(|[low, high]| table::write(SPAN, &[node, function, low, high]));
    [args.concat(), spans.concat()].concat()
}

/// A node's handler: it sends, which wakes the others if it is node 0, and calls without end: each function with the
/// two arguments of ARG, the low end of a range and the high end of the other.
fn handler(node: u32) -> Vec<u8> {
    let calls =
        functions_of(node).flat_map(|function| [10, 20, 100, 399].map(|argument| call(function, argument)));
    let body = [table::write(BODY, &[node]), table::write(SEND, &[0])].concat();
    [body, calls.flatten().collect(), table::write(JUMP, &[1])].concat()
}

/// A call with an argument.
pub fn call(function: u32, argument: u32) -> Vec<u8> {
    [table::write(SET, &[argument]), table::write(CALL, &[function])].concat()
}

/// The calls of the handler with a single list.
const CALLS: u32 = 31;

/// One list of 256 commands, ARG and SPAN in turn, all of one node and one function. The node calls with 31
/// arguments, from the first command's to the last one's, again and again. Of the 4,096 turns 2,015 are calls.
pub fn single() -> Vec<u8> {
    let last = MAX_ARGS as u32 - 1;
    let head = [vec![FLOW, NODE], table::write(FUN, &[9])].concat();
    let list = (0..=last).flat_map(single_command);
    let arguments = (0..CALLS).map(|number| single_argument(number * last / (CALLS - 1)));
    let calls = arguments.flat_map(|argument| call(0, argument));
    let handler = table::write(BODY, &[0]).into_iter().chain(calls).chain(table::write(JUMP, &[0]));
    with_turns(head.into_iter().chain(list).chain(handler).chain(table::write(START, &[0, 2])).collect())
}

/// A command of the single list, by its number.
fn single_command(number: u32) -> Vec<u8> {
    match number % 2 {
        0 => table::write(ARG, &[0, 0, 8 * number]),
        _ => table::write(SPAN, &[0, 0, 8 * number, 8 * number + 3]),
    }
}

/// An argument that this command alone permits: of a range the high end.
fn single_argument(number: u32) -> u32 {
    8 * number + number % 2 * 3
}

/// The job with as many turns as a job can have, each of which completes.
pub fn with_turns(job: Vec<u8>) -> Vec<u8> {
    let turns: Vec<u8> = entries(&job).iter().flat_map(|entry| [TURN, entry.node]).collect();
    [job, turns].concat()
}

/// The entries of the turns that such a job gets.
fn entries(job: &[u8]) -> Vec<Entry> {
    schedule(&decode(job).expect("a valid job"), MAX_TURNS, Mode::Monitored)
}

/// How many of the turns are calls.
pub fn calls(job: &[u8]) -> usize {
    entries(job).iter().filter(|entry| entry.kind == kind::CALL).count()
}
