//! Calls beside REPLY: which answer they get, what goes on with it, and that the lists judge the argument.

use super::lists::{last_node_with, NEEDED};
use super::spans::mixed;
use super::stops::{access_job, DECLARATIONS};
use super::worlds::{reply, span};
use super::Job;
use crate::table::{self, *};

const MAX: u32 = u32::MAX;

pub fn jobs() -> Vec<Job> {
    let short = [single(), extreme(), several(), functions(), vec![two_nodes()], lists()].concat();
    [short, chains(), loops(), long_lists(), all_functions(), last_numbers()].concat()
}

/// Node 0 calls function 0, which it may, with the argument, and sends the answer. FUN's is 8.
fn call(argument: u32, replies: &[&[u8]]) -> Job {
    access_job(&[&replies.concat()[..], &[ANY, 0, 0]].concat(), [CALL, 0], argument)
}

/// The argument 7 and one reply: to it, with several answers; to an argument that is close or differs in one of the
/// higher bits; to it of the other function.
fn single() -> Vec<Job> {
    let answers = [5, 0, MAX, 7, 8, 0x0102_0304].map(|answer| call(7, &[&reply(0, 7, answer)]));
    let close = [6, 8, 7 << 8, 7 << 24].map(|argument| call(7, &[&reply(0, argument, 5)]));
    let one_bit = [8, 16, 24, 31].map(|bit| call(7, &[&reply(0, 7 | 1 << bit, 5)]));
    [&answers[..], &close, &one_bit, &[call(7, &[&reply(1, 7, 5)])]].concat()
}

/// Arguments at 0, at the largest number and where a byte or the sign would change; each with the reply to it and
/// with that to another.
fn extreme() -> Vec<Job> {
    let middle = 1 << 31;
    let pairs = [(0, MAX), (MAX, MAX - 1), (middle, middle - 1), (0x0102_0304, 0x0403_0201)];
    let both = |(argument, other)| [argument, other].map(|to| call(argument, &[&reply(0, to, 5)]));
    pairs.into_iter().flat_map(both).collect()
}

/// Replies to 3, 7 and 11 in several orders: each of them asked; then one between.
fn several() -> Vec<Job> {
    let orders = [[3, 7, 11], [11, 7, 3], [7, 11, 3]];
    let replies = |order: [u32; 3]| order.map(|number| reply(0, number, 10 * number)).concat();
    let asked = |order| [3, 7, 11].map(|argument| call(argument, &[&replies(order)]));
    let between = call(8, &[&replies(orders[0])]);
    orders.into_iter().flat_map(asked).chain([between]).collect()
}

/// Either function with the same argument: replies of both, then of function 1 alone. FUN's answers are 8 and 256.
fn functions() -> Vec<Job> {
    let lists = [[reply(0, 7, 1), reply(1, 7, 2)], [reply(1, 7, 2), reply(1, 8, 3)]];
    let job = |replies: &[Vec<u8>; 2], function| {
        let may_call = [ANY, 0, 0, ANY, 0, 1];
        access_job(&[&replies.concat()[..], &may_call].concat(), [CALL, function], 7)
    };
    lists.iter().flat_map(|replies| [0, 1].map(|function| job(replies, function))).collect()
}

/// Two nodes that call the same function with the same argument: both get the reply.
fn two_nodes() -> Job {
    let replies = [reply(0, 7, 5), reply(1, 7, 6)].concat();
    let lists = [WIRE, 0, 0, 1, ANY, 0, 0, ANY, 1, 0];
    let handlers = [BODY, 0, TAKE, SEND, 0, CALL, 0, SEND, 1, BODY, 1, TAKE, CALL, 0, SEND, 1];
    let turns = [[TURN, 0].repeat(6), [TURN, 1].repeat(5)].concat();
    [&DECLARATIONS, &replies[..], &lists, &handlers, &table::write(START, &[0, 7]), &turns].concat()
}

/// The lists judge the argument, 7, and not the answer, 5.
fn lists() -> Vec<Job> {
    let arg = |value| table::write(ARG, &[0, 0, value]);
    let permissions = [vec![], arg(7), arg(5), span(0, 0, 7, 9), span(0, 0, 5, 6), vec![ANY, 0, 1]];
    permissions.map(|list| access_job(&[reply(0, 7, 5), list].concat(), [CALL, 0], 7)).to_vec()
}

/// A job of node 0 with its handler's commands, its list and so many turns.
fn job_of(replies: &[Vec<u8>], list: &[u8], handler: &[u8], message: u32, turns: usize) -> Job {
    let start = table::write(START, &[0, message]);
    let body = [&[BODY, 0], handler].concat();
    [&DECLARATIONS, &replies.concat()[..], list, &body, &start, &[TURN, 0].repeat(turns)].concat()
}

/// Each call asks with the answer to the last one: 7, 3, the largest number, 0, which has no reply, and FUN's 8. All
/// are permitted, in two ways; then all but that with 0; then not the third.
fn chains() -> Vec<Job> {
    let replies = [reply(0, MAX, 0), reply(0, 7, 3), reply(0, 3, MAX)];
    let arg = |value| table::write(ARG, &[0, 0, value]);
    let handler = [&[TAKE][..], &[CALL, 0].repeat(5), &[SEND, 0]].concat();
    let lists = [
        vec![ANY, 0, 0],
        [arg(0), arg(3), arg(7), arg(8), arg(MAX)].concat(),
        [arg(3), arg(7), arg(8), arg(MAX)].concat(),
        span(0, 0, 1, 9),
    ];
    lists.map(|list| job_of(&replies, &list, &handler, 7, 9)).to_vec()
}

/// Loops that call again and again: with a number that counts up, with the answer to the last call, until it is 0.
fn loops() -> Vec<Job> {
    let counting = [GET, 0, ADD, 1, 0, 0, 0, PUT, 0, CALL, 0, SEND, 0, JUMP, 0];
    let even = [reply(0, 8, 80), reply(0, 2, 20), reply(0, 6, 60), reply(0, 4, 40)];
    let round = [reply(0, 2, 7), reply(0, 1, 2), reply(0, 7, 1)];
    let around = [TAKE, CALL, 0, SEND, 0, JUMP, 1];
    let down = [reply(0, 1, 0), reply(0, 2, 1), reply(0, 3, 2), reply(0, 8, 3)];
    let until_0 = [TAKE, CALL, 0, JUMPZ, 4, JUMP, 1, SEND, 0];
    let any = [ANY, 0, 0];
    vec![
        job_of(&even, &any, &counting, 7, 61),
        job_of(&even, &span(0, 0, 1, 7), &counting, 7, 61),
        job_of(&round, &any, &around, 7, 40),
        job_of(&round, &[span(0, 0, 1, 2), span(0, 0, 7, 7)].concat(), &around, 7, 40),
        job_of(&down, &any, &until_0, 9, 18),
    ]
}

/// As many replies of one function as may be, lowest argument first and last: asked for the first, one between, the
/// last and another; and beside as many ARG and SPAN commands.
fn long_lists() -> Vec<Job> {
    let last = MAX_REPLIES as u32 - 1;
    let replies: Vec<Vec<u8>> = (0..=last).map(|number| reply(0, 4 * number, 1000 + number)).collect();
    let up = replies.concat();
    let down: Vec<u8> = replies.into_iter().rev().flatten().collect();
    let asked = [0, 4 * (last / 2), 4 * last, 4 * last + 4];
    let mut jobs = asked.map(|argument| call(argument, &[&up])).to_vec();
    jobs.extend([0, 4 * last].map(|argument| call(argument, &[&down])));
    let listed = |argument| access_job(&[&up[..], &mixed()].concat(), [CALL, 0], argument);
    jobs.extend([4 * last, 4 * last + 4, 4 * last + 6].map(listed));
    jobs
}

/// A function's arguments that have a reply.
fn arguments(function: u32) -> [u32; 4] {
    [0, 10, 20, 30].map(|step| 1000 * function + step)
}

/// An argument of a function that has none.
fn other_argument(function: u32) -> u32 {
    1000 * function + 6
}

/// Every function that there can be with four replies, which are all that there can be. Eight nodes call four
/// functions each, with these arguments and another one, and send the answers: under ANY, under 256 ARG and SPAN
/// commands, and under these but for the last, which the last call needs.
fn all_functions() -> Vec<Job> {
    let functions = 0..MAX_FUNCTIONS as u32;
    let any = |function: u32| table::write(ANY, &[function / 4, function]);
    let any: Vec<u8> = functions.clone().flat_map(any).collect();
    let listed: Vec<u8> = functions.flat_map(listed).collect();
    let but_last = &listed[..listed.len() - span(0, 0, 0, 0).len()];
    [&any[..], &listed, but_last].map(with_all_functions).to_vec()
}

/// Eight commands for a function's calls: four ARG, then four SPAN, of which the last alone has the other argument.
fn listed(function: u32) -> Vec<u8> {
    let (node, other) = (function / 4, other_argument(function));
    let args = arguments(function).map(|argument| table::write(ARG, &[node, function, argument]));
    let spans = [60, 70, 80, 0].map(|more| span(node, function, other + more - 1, other + more + 1));
    [args.concat(), spans.concat()].concat()
}

/// The job of these nodes, with these lists.
fn with_all_functions(lists: &[u8]) -> Job {
    let functions = 0..MAX_FUNCTIONS as u32;
    let mut job = [FLOW, NODE].repeat(MAX_FLOWS);
    job.extend(functions.flat_map(declared));
    job.extend_from_slice(lists);
    job.extend((0..MAX_FLOWS as u32).flat_map(caller));
    job.extend((0..MAX_FLOWS as u32).flat_map(|node| table::write(START, &[node, 1])));
    job.extend((0..MAX_FLOWS as u8).flat_map(|node| [TURN, node].repeat(62)));
    job
}

/// A function and its replies.
fn declared(function: u32) -> Vec<u8> {
    let replies = arguments(function).map(|argument| reply(function, argument, argument + 1));
    [table::write(FUN, &[function]), replies.concat()].concat()
}

/// A node's handler, 60 commands: it calls each of its functions with five arguments and sends the answers.
fn caller(node: u32) -> Vec<u8> {
    let call = |function: u32, argument: u32| {
        [table::write(SET, &[argument]), table::write(CALL, &[function]), table::write(SEND, &[0])].concat()
    };
    let calls = (4 * node..4 * node + 4).flat_map(|function| {
        let asked = arguments(function).into_iter().chain([other_argument(function)]);
        asked.flat_map(move |argument| call(function, argument))
    });
    table::write(BODY, &[node]).into_iter().chain(calls).collect()
}

/// The last function that there can be, whose argument is 12; 31 is FUN's answer. The third job's replies are of the
/// functions whose numbers differ from its in one bit.
fn last_numbers() -> Vec<Job> {
    let others = [30, 29, 27, 23, 15].map(|function| reply(function, 12, MAX)).concat();
    let replies = [reply(31, 12, MAX), reply(31, 13, MAX), others, reply(31, 12, 31)];
    replies.map(|replies| last_node_with(&replies, &NEEDED.concat())).to_vec()
}
