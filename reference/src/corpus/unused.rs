//! Refusal 19: permissions whose node's handler has a command for them, and unused ones.

use super::buffers::some_lengths;
use super::edits::{other_bytes, tour};
use super::mend::mended;
use super::run::{Run, Runs};
use super::spans::{mixed, small_and};
use super::worlds::{behind, small, span, world};
use super::{handlers, worked, Job};
use crate::generate::uses::use_of;
use crate::table::{self, *};
use crate::{decode, Refusal};

/// Unused permissions and jobs that are close to them, for both modes.
pub fn jobs() -> Vec<Job> {
    [sorts(), bodies(), beside_any(), several(), order(), largest_numbers(), worked()].concat()
}

/// A permission of each sort, of this node with this variable and function.
fn permissions(node: u8, variable: u8, function: u8) -> [Vec<u8>; 5] {
    let [any, read, write] =
        [(ANY, function), (READ, variable), (WRITE, variable)].map(|(byte, number)| vec![byte, node, number]);
    let call = [u32::from(node), function.into()];
    [any, table::write(ARG, &[call[0], call[1], 7]), read, write, span(call[0], call[1], 3, 9)]
}

/// The handler commands that name a variable or a function: these, then others.
fn accesses(variables: [u8; 2], functions: [u8; 2]) -> Vec<[u8; 2]> {
    let of = |index: usize| {
        [[GET, variables[index]], [PUT, variables[index]], [PLUS, variables[index]], [CALL, functions[index]]]
    };
    [of(0), of(1)].concat()
}

/// Every sort beside every handler command that names a variable or a function, the same and another, in the handler of
/// its node and of another.
fn sorts() -> Vec<Job> {
    let mut jobs = Vec::new();
    for permission in permissions(0, 1, 1) {
        for node in [0, 1] {
            for access in accesses([1, 3], [1, 0]) {
                jobs.push(behind(&small(), &[&permission[..], &[BODY, node], &access].concat()));
            }
        }
    }
    jobs
}

/// Every sort without a BODY, with an empty one, with one of all other commands, with all commands in another node's,
/// and with a use that is not reached: behind the end of what runs, behind a loop, and in a node without turns.
fn bodies() -> Vec<Job> {
    let rest: &[u8] = &[SET, 1, 0, 0, 0, TAKE, ADD, 1, 0, 0, 0, JUMPZ, 0, JUMP, 0, SEND, 0, SKIP];
    let all: &[u8] = &accesses([1, 3], [1, 0]).concat();
    let turns: &[u8] = &[START, 0, 7, 0, 0, 0, TURN, 0, TURN, 0, TURN, 0];
    let mut jobs = Vec::new();
    for permission in &permissions(0, 1, 1) {
        let command: &[u8] = &use_of(permission);
        jobs.extend(small_and(&[
            &[permission, turns],
            &[permission, &[BODY, 0], turns],
            &[permission, &[BODY, 0], rest],
            &[permission, &[BODY, 1], all, &[BODY, 0]],
            &[permission, &[BODY, 0], rest, &[BODY, 1], all],
            &[permission, &[BODY, 0, JUMP, 2], command, turns],
            &[permission, &[BODY, 0, JUMP, 0], command, turns],
            &[permission, &[BODY, 1], &[BODY, 0, SKIP], command, &[TURN, 1]],
        ]));
    }
    jobs
}

/// ANY, ARG and SPAN of one call in several orders: with the call and with another one. ARG whose argument cannot come
/// up, and READ and WRITE of one variable with either access alone.
fn beside_any() -> Vec<Job> {
    let [any, arg, read, write, span] = &permissions(0, 1, 1);
    let mut jobs = Vec::new();
    for list in [[any, arg, span], [arg, span, any], [span, any, arg]] {
        for function in [1, 0] {
            jobs.push(behind(
                &small(),
                &[&list.map(Vec::clone).concat()[..], &[BODY, 0, CALL, function]].concat(),
            ));
        }
    }
    let set: &[u8] = &[BODY, 0, SET, 8, 0, 0, 0, CALL, 1];
    jobs.extend(small_and(&[
        &[arg, set],
        &[read, write, &[BODY, 0, GET, 1]],
        &[read, write, &[BODY, 0, PUT, 1]],
        &[write, read, &[BODY, 0, PLUS, 1]],
        &[write, read, &[BODY, 0, PLUS, 1, PUT, 1]],
    ]));
    jobs
}

/// Two permissions of different sorts: both unused, and the first of them used.
fn several() -> Vec<Job> {
    let list = permissions(0, 1, 1);
    let mut jobs = Vec::new();
    for (first, second) in list.iter().flat_map(|first| list.iter().map(move |second| (first, second))) {
        if first != second {
            let both = [&first[..], second, &[BODY, 0]].concat();
            jobs.push(behind(&small(), &[&both[..], &[SKIP]].concat()));
            jobs.push(behind(&small(), &[&both[..], &use_of(first)].concat()));
        }
    }
    jobs
}

/// An unused permission before and behind something else that is refused: 19 waits for all of it.
fn order() -> Vec<Job> {
    let unused: &[u8] = &[READ, 0, 1];
    small_and(&[
        &[unused, &[0x35]],
        &[unused, &[TURN]],
        &[unused, &[TURN, 0], &[WIRE, 0, 0, 0]],
        &[unused, &[BODY, 0], &[SKIP; MAX_BODY_COMMANDS + 1]],
        &[unused, &[ANY, 0, 9]],
        &[unused, &[READ, 0, 0]],
        &[unused, &[BODY, 1, GET, 0]],
        &[unused, unused],
        &[unused, &[BODY, 0, BODY, 0]],
        &[unused, &span(0, 0, 9, 3)],
        &[&span(0, 0, 9, 3), unused],
        &[unused, &[BODY, 0, JUMP, 2]],
        &[unused, &[BODY, 0, PUT, 1, BODY, 2, SKIP, JUMPZ, 255]],
        &[unused, &[BODY, 0, GET, 1, JUMP, 3]],
        &[unused, &[BODY, 0, GET, 1, JUMP, 2]],
    ])
}

/// The last node, variable and function that there can be: used, used in the node before, and numbers that differ in one
/// bit used instead.
fn largest_numbers() -> Vec<Job> {
    let plan = world(&[MAX_NODES], &[(2, 0); MAX_VARIABLES], MAX_FUNCTIONS);
    let mut jobs = Vec::new();
    for permission in permissions(31, 63, 31) {
        let [byte, number] = use_of(&permission);
        let bodies = [[31, number], [30, number], [31, number ^ 1], [31, number ^ 32], [31, number ^ 16]];
        let declared = bodies.into_iter().filter(|[_, number]| byte != CALL || *number < 32);
        let job = |[node, number]: [u8; 2]| [&permission[..], &[BODY, node, byte, number]].concat();
        jobs.extend(declared.map(|body| behind(&plan, &job(body))));
    }
    jobs
}

/// K1 with one more permission, of each sort: for node 0, which reads and sends, and for node 1, which calls.
fn worked() -> Vec<Job> {
    let k1 = &worked::jobs()[0];
    let lists = [permissions(0, 0, 0), permissions(1, 0, 0)].concat();
    let more = lists.into_iter().filter(|one| *one != [READ, 0, 0] && *one != [ARG, 1, 0, 7, 0, 0, 0]);
    more.map(|permission| [&k1[..29], &permission, &k1[29..]].concat()).collect()
}

/// Jobs that are run once: long lists, a late place, and edits.
pub fn once() -> Vec<Job> {
    [long_lists(), vec![handlers::late(1)], edits()].concat()
}

/// Long lists of one sort, all used but the last, the first or one between: as many variables or functions as there can
/// be, and as many ARG and SPAN commands.
fn long_lists() -> Vec<Job> {
    let plan = world(&[1], &[(2, 0); MAX_VARIABLES], MAX_FUNCTIONS);
    let mut jobs = Vec::new();
    for (permission, command, count) in [(READ, PLUS, 64), (WRITE, PUT, 64), (ANY, CALL, 32)] {
        let list: Vec<u8> = (0..count).flat_map(|number| [permission, 0, number]).collect();
        for unused in [count - 1, 0, count / 2] {
            let commands = (0..count).filter(|&number| number != unused).flat_map(|number| [command, number]);
            jobs.push(behind(&plan, &[&list[..], &[BODY, 0], &commands.collect::<Vec<u8>>()].concat()));
        }
    }
    let last: &[u8] = &[ARG, 1, 0, 7, 0, 0, 0];
    let most: &[u8] = &mixed();
    let but_last = &most[..most.len() - span(0, 0, 0, 0).len()];
    jobs.extend(small_and(&[
        &[but_last, last, &[BODY, 0, CALL, 0]],
        &[last, but_last, &[BODY, 0, CALL, 0]],
        &[most, &[WRITE, 0, 1], &[BODY, 0, CALL, 0, GET, 1]],
        &[but_last, last, &[BODY, 0, CALL, 0, BODY, 1, CALL, 0]],
    ]));
    jobs
}

/// Each byte of a job with every command one more and one less, where that makes a permission unused.
fn edits() -> Vec<Job> {
    let is_unused = |job: &Job| matches!(decode(job), Err(Refusal { number: 19, .. }));
    other_bytes(&mended(tour().concat())).into_iter().filter(is_unused).collect()
}

/// An unused permission, the same used, and an unused one with a far jump, with nine turns and buffers that are short and
/// long enough.
pub fn beside_buffers(runs: &mut Runs) -> Vec<Run> {
    let turns: &[u8] = &[TURN, 0].repeat(9);
    let jobs = small_and(&[
        &[&[WRITE, 0, 3, BODY, 0, GET, 3], turns],
        &[&[WRITE, 0, 3, BODY, 0, PUT, 3], turns],
        &[&[WRITE, 0, 3, BODY, 0, JUMP, 9], turns],
    ]);
    let mut list = Vec::new();
    for job in jobs {
        list.extend(some_lengths().into_iter().flat_map(|lengths| runs.both(&job, lengths)));
    }
    list
}
