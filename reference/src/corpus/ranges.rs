//! Calls beside SPAN: at the ends of a range, one below and one above, and beside other permissions.

use super::lists::{last_node, NEEDED};
use super::spans::mixed;
use super::stops::access_job;
use super::worlds::span;
use super::Job;
use crate::table::*;

const MAX: u32 = u32::MAX;

pub fn jobs() -> Vec<Job> {
    [single(), extreme(), several(), other_accesses(), long_list(), last_numbers()].concat()
}

/// Node 0 calls function 0 with the argument, under these permissions.
fn call(argument: u32, permissions: &[&[u8]]) -> Job {
    access_job(&permissions.concat(), [CALL, 0], argument)
}

/// The argument 7 and one range: it is an end, inside, one below, one above; the range of another node or function.
fn single() -> Vec<Job> {
    let ends =
        [(7, 7), (0, 7), (7, 9), (6, 8), (0, MAX), (8, 8), (8, MAX), (6, 6), (0, 6), (7 << 8, 7 << 24)];
    let own = ends.map(|(low, high)| call(7, &[&span(0, 0, low, high)]));
    let others = [span(1, 0, 0, MAX), span(0, 1, 0, MAX), span(2, 1, 7, 7)].map(|other| call(7, &[&other]));
    [&own[..], &others].concat()
}

/// Speeds about 90, and arguments and ends at 0, at the largest number and where a byte or the sign would change.
fn extreme() -> Vec<Job> {
    let middle = 1 << 31;
    [
        (90, 0, 90),
        (91, 0, 90),
        (0, 0, 90),
        (0, 1, MAX),
        (MAX, MAX, MAX),
        (MAX, 0, MAX - 1),
        (MAX, 0, MAX),
        (0, 0, 0),
        (middle, middle - 1, middle + 1),
        (middle, 0, middle - 1),
        (256, 255, 257),
        (256, 1, 255),
    ]
    .map(|(argument, low, high)| call(argument, &[&span(0, 0, low, high)]))
    .to_vec()
}

/// The argument 7 and several permissions: overlapping, touching, nested ranges, a gap between two; ANY and ARG,
/// with a range that has the argument and with one that has not.
fn several() -> Vec<Job> {
    let [below, above]: [&[u8]; 2] = [&span(0, 0, 0, 6), &span(0, 0, 8, MAX)];
    let with: &[u8] = &span(0, 0, 5, 9);
    let arg = |value: u8| [ARG, 0, 0, value, 0, 0, 0];
    vec![
        call(7, &[&span(0, 0, 0, 7), &span(0, 0, 4, 9)]),
        call(7, &[below, &span(0, 0, 7, 9)]),
        call(7, &[above, &span(0, 0, 2, 7)]),
        call(7, &[&span(0, 0, 0, 20), &span(0, 0, 8, 9)]),
        call(7, &[below, above]),
        call(7, &[&span(0, 0, 0, 5), &span(0, 0, 3, 6), &span(1, 0, 7, 7)]),
        call(7, &[below, &[ANY, 0, 0]]),
        call(7, &[below, &[ANY, 0, 1], &[ANY, 1, 0]]),
        call(7, &[above, &arg(7)]),
        call(7, &[above, &arg(6), below]),
        call(7, &[with, &arg(7)]),
        call(7, &[with, &arg(8), &[ANY, 0, 0]]),
        call(7, &[&arg(7), &span(0, 0, 7, 7)]),
    ]
}

/// A read, a write and a call of function 1 beside ranges that are not theirs.
fn other_accesses() -> Vec<Job> {
    let all = [span(0, 0, 0, MAX), span(1, 1, 0, MAX)].concat();
    let calls = [all.clone(), span(0, 1, 0, MAX)].concat();
    vec![
        access_job(&calls, [GET, 1], 7),
        access_job(&calls, [PUT, 1], 7),
        access_job(&calls, [CALL, 1], 7),
        access_job(&all, [CALL, 1], 7),
    ]
}

/// As many ARG and SPAN commands as may be: the argument of the first, that of the last range's high, one above it.
fn long_list() -> Vec<Job> {
    let last = 4 * (MAX_ARGS as u32 - 1) + 1;
    [0, last, last + 1].map(|argument| call(argument, &[&mixed()])).to_vec()
}

/// The last node and function that there can be, whose argument is 12.
fn last_numbers() -> Vec<Job> {
    let spans = [span(31, 31, 12, 12), span(31, 31, 13, MAX), span(30, 31, 0, MAX), span(31, 30, 0, MAX)];
    spans.map(|span| last_node(&[&NEEDED[..3].concat()[..], &span].concat())).to_vec()
}
