//! REPLY: refusals 3 to 6 and 8 at it, by number and place, and what only looks wrong.

use super::buffers::some_lengths;
use super::names::edges;
use super::run::{Run, Runs};
use super::spans::{cut, mixed, small_and};
use super::worlds::{behind, command, full, reply, small, span};
use super::Job;
use crate::table::{self, *};

const MAX: u32 = u32::MAX;

/// Refusals 4, 6 and 8 at a REPLY, and jobs that are close to them.
pub fn jobs() -> Vec<Job> {
    [groups(), between(), names(), repeats(), close_by(), first_goes()].concat()
}

/// A REPLY that is cut.
pub fn cuts() -> Vec<Job> {
    cut(&reply(0, 7, 9), &reply(9, 7, 9))
}

/// As many replies as may be, of the two functions in turn.
fn most() -> Vec<u8> {
    (0..MAX_REPLIES as u32).flat_map(|number| reply(number % 2, number / 2, number)).collect()
}

/// As many replies as may be, four of each function that there can be.
fn most_of_full() -> Vec<u8> {
    (0..MAX_REPLIES as u32).flat_map(|number| reply(number / 4, number % 4, 1 << (number % 32))).collect()
}

/// The most replies; one more, undeclared, repeated with either answer, cut, or behind a wire; the last of them
/// repeated or undeclared; and beside other counts.
pub fn limits() -> Vec<Job> {
    let most: &[u8] = &most();
    let but_last = &most[..most.len() - reply(0, 0, 0).len()];
    let of_one: Vec<u8> = (0..MAX_REPLIES as u32).flat_map(|number| reply(1, MAX - number, 5)).collect();
    let [variable, function] = &[VAR, FUN].map(|byte| command(&small(), byte));
    let jobs = small_and(&[
        &[most],
        &[most, &reply(0, 64, 1)],
        &[most, &reply(9, 0, 1)],
        &[most, &reply(0, 0, 0)],
        &[most, &reply(0, 0, 77)],
        &[most, &reply(0, 64, 1)[..9]],
        &[most, &[WIRE, 0, 0, 1], &reply(0, 64, 1)],
        &[but_last, &reply(0, 1, 77)],
        &[but_last, &reply(2, 0, 1)],
        &[&of_one],
        &[&of_one, &reply(0, 0, 5)],
        &[most, variable, function],
        &[most, function, &reply(2, 0, 1)],
    ]);
    [jobs, beside_other_counts()].concat()
}

/// Every count of declarations reached with the most replies, and then one more of each; 256 of ARG and SPAN beside
/// them, and then one more.
fn beside_other_counts() -> Vec<Job> {
    let most = most_of_full();
    let more = [vec![], command(&full(), VAR), command(&full(), FUN), reply(31, 9, 9)];
    let mut jobs = more.map(|more| behind(&full(), &[&most[..], &more].concat())).to_vec();
    for more in [vec![], command(&full(), ARG)] {
        jobs.push(behind(&full(), &[&most[..], &mixed(), &more].concat()));
    }
    jobs
}

/// Behind higher groups, where nothing else is wrong, it is undeclared or repeated; and before lower ones.
fn groups() -> Vec<Job> {
    let fine: &[u8] = &reply(0, 7, 9);
    let [wire, any] = &[WIRE, ANY].map(|byte| command(&small(), byte));
    small_and(&[
        &[wire, fine],
        &[any, fine],
        &[&span(0, 0, 3, 9), fine],
        &[&[BODY, 0], fine],
        &[&[START, 0, 1, 0, 0, 0], fine],
        &[&[TURN, 0], fine],
        &[&[TURN, 0], &reply(9, 7, 9)],
        &[fine, wire, fine],
        &[fine, &[FLOW]],
        &[fine, &[NODE]],
        &[fine, wire, any, &[TURN, 0]],
    ])
}

/// Between variables and functions: behind its FUN it may stand, before it not; with no flow and no node.
fn between() -> Vec<Job> {
    let [one, two]: [&[u8]; 2] = [&reply(0, 7, 9), &reply(1, 7, 9)];
    let function: &[u8] = &table::write(FUN, &[3]);
    let variable: &[u8] = &table::write(VAR, &[2, 0, 5]);
    let flow: &[u8] = &[FLOW, NODE];
    [
        &[one][..],
        &[function, one],
        &[one, function],
        &[flow, variable, one, function],
        &[flow, function, one, two, function],
        &[flow, function, function, two, one],
        &[flow, function, one, variable, function, two, variable, &reply(0, 8, 1), &reply(1, 8, 1)],
        &[flow, function, variable, one, function, variable, two, &[WIRE, 0, 0, 0, ANY, 0, 1]],
    ]
    .map(<[&[u8]]>::concat)
    .to_vec()
}

/// Functions that are declared and that are not, with 2 and 32 of them.
fn names() -> Vec<Job> {
    let row = table::row(REPLY).expect("a byte of the table");
    [small(), full()].iter().flat_map(|plan| edges(plan, row)).collect()
}

/// A function and an argument again: with the same answer, with another, with FUN's own; at once, later, with the
/// least and the largest argument; of the last function.
fn repeats() -> Vec<Job> {
    let one: &[u8] = &reply(0, 7, 9);
    let [variable, function] = &[VAR, FUN].map(|byte| command(&small(), byte));
    let mut jobs = small_and(&[
        &[one, one],
        &[one, &reply(0, 7, 10)],
        &[one, &reply(0, 7, 9 << 24)],
        &[one, &reply(0, 7, 0)],
        &[&reply(0, 7, 0), &reply(0, 7, 0)],
        &[&reply(0, 7, 0), one],
        &[one, &reply(1, 7, 9), variable, &reply(0, 8, 9), function, &reply(2, 7, 9), one],
        &[one, &reply(1, 7, 9), &reply(0, 8, 9), &reply(1, 7, 8)],
        &[&reply(1, 0, 5), &reply(1, 1, 5), &reply(1, 0, 6)],
        &[&reply(1, MAX, 5), &reply(1, 0, 5), &reply(1, MAX, 6)],
    ]);
    jobs.push(behind(&full(), &reply(31, MAX, 0).repeat(2)));
    jobs
}

/// What only looks repeated: another function, another argument in each of its bytes or in one bit, argument and
/// answer exchanged, equal answers, FUN's own answer.
fn close_by() -> Vec<Job> {
    let one: &[u8] = &reply(0, 7, 9);
    small_and(&[
        &[one, &reply(1, 7, 9)],
        &[one, &reply(0, 6, 9), &reply(0, 8, 9)],
        &[one, &reply(0, 7 << 8, 9), &reply(0, 7 << 16, 9), &reply(0, 7 << 24, 9)],
        &[one, &[8, 16, 24, 31].map(|bit| reply(0, 7 | 1 << bit, 9)).concat()],
        &[one, &reply(0, 9, 7), &reply(0, 9 << 8, 7)],
        &[&reply(0, 0, 0), &reply(0, MAX, 0), &reply(1, 0, MAX), &reply(1, MAX, MAX)],
        &[&reply(0, 1, 5), &reply(1, 0, 5), &reply(0, 1 << 8, 5), &reply(1, 1, 5)],
        &[&reply(0, 7, 0), &reply(1, 7, 1)],
    ])
}

/// An undeclared or repeated REPLY before and behind something else that is refused: the first goes, but a jump too
/// far waits for all others.
fn first_goes() -> Vec<Job> {
    let fine: &[u8] = &reply(0, 7, 9);
    let undeclared: &[u8] = &reply(2, 7, 9);
    let other: &[u8] = &reply(0, 7, 5);
    small_and(&[
        &[fine, undeclared, other],
        &[fine, other, undeclared],
        &[fine, other, &[0xFF]],
        &[fine, other, &[TURN]],
        &[undeclared, &[FLOW]],
        &[fine, other, &[WIRE, 0, 0, 2]],
        &[fine, other, &[BODY, 0, JUMP, 255]],
        &[fine, &[BODY, 0, JUMP, 255]],
        &[&[VAR, 3, 0, 0, 0, 0, 0], fine, other],
        &[fine, &[ANY, 0, 9]],
        &[fine, &span(0, 0, 9, 3)],
    ])
}

/// Refused at a REPLY by 5, 6 and 8, and accepted, with nine turns and buffers that are short and long enough.
pub fn beside_buffers(runs: &mut Runs) -> Vec<Run> {
    let [fine, other]: [&[u8]; 2] = [&reply(0, 7, 9), &reply(0, 7, 5)];
    let turns: &[u8] = &[TURN, 0].repeat(9);
    let jobs = small_and(&[
        &[&most(), &reply(0, 64, 1), turns],
        &[fine, &reply(2, 7, 9), turns],
        &[fine, other, turns],
        &[fine, turns],
    ]);
    let with_lengths =
        |job: Job| some_lengths()[2..].iter().flat_map(|&lengths| runs.both(&job, lengths)).collect();
    jobs.into_iter().map(with_lengths).collect::<Vec<Vec<Run>>>().concat()
}
