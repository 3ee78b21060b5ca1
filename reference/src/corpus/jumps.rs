//! Refusal 9: jumps to the end of their body, one past it and far past it.

use super::Job;
use crate::table::*;

pub fn jobs() -> Vec<Job> {
    [one_body(), three_bodies(), two_far(), behind_bodies()].concat()
}

/// Three nodes, and no more.
const HEAD: [u8; 4] = [FLOW, NODE, NODE, NODE];

/// A body of node 0 with so many commands: the jump stands at a place among fillers.
fn body(count: usize, at: usize, byte: u8, target: usize) -> Vec<u8> {
    let jump = [byte, target as u8];
    [&[BODY, 0], &[SKIP].repeat(at)[..], &jump, &[SKIP].repeat(count - at - 1)].concat()
}

/// Bodies of many lengths with a jump at the start, in the middle, at the end: to the first command, itself,
/// the last, the end, one past it, far past it.
fn one_body() -> Vec<Job> {
    let mut jobs = Vec::new();
    for (length, byte) in [1, 2, 3, 10, 63, 64].into_iter().zip([JUMP, JUMPZ].into_iter().cycle()) {
        for at in [0, length / 2, length - 1] {
            for target in [0, at, length - 1, length, length + 1, 255] {
                jobs.push([&HEAD[..], &body(length, at, byte, target)].concat());
            }
        }
    }
    jobs
}

/// Node and commands of three bodies, which do not stand in the order of their nodes.
const BODIES: [(u8, u8); 3] = [(1, 3), (0, 6), (2, 2)];

/// A jump in one of the three bodies: its index among all their commands, its byte, and how far past the end
/// of its own body it goes.
struct Jump {
    index: usize,
    byte: u8,
    past: u8,
}

/// The three bodies with some jumps in them.
fn bodies(jumps: &[Jump]) -> Job {
    let mut job = HEAD.to_vec();
    let mut index = 0;
    for (node, count) in BODIES {
        job.extend([BODY, node]);
        for _ in 0..count {
            match jumps.iter().find(|jump| jump.index == index) {
                Some(jump) => job.extend([jump.byte, count.saturating_add(jump.past)]),
                None => job.push(SKIP),
            }
            index += 1;
        }
    }
    job
}

/// The commands of the three bodies.
fn indices() -> std::ops::Range<usize> {
    0..BODIES.iter().map(|&(_, count)| usize::from(count)).sum()
}

/// A jump at each place of three bodies: to the end, one past it, two past it.
fn three_bodies() -> Vec<Job> {
    let mut jobs = Vec::new();
    for index in indices() {
        for byte in [JUMP, JUMPZ] {
            jobs.extend([0, 1, 2].map(|past| bodies(&[Jump { index, byte, past }])));
        }
    }
    jobs
}

/// Two bad jumps at all pairs of places: the first is the place, whichever goes farther.
fn two_far() -> Vec<Job> {
    let mut jobs = Vec::new();
    for index in indices() {
        for second in index + 1..indices().end {
            let (near, far) = if index % 2 == 0 { (1, 255) } else { (255, 1) };
            let first = Jump { index, byte: JUMPZ, past: near };
            jobs.push(bodies(&[first, Jump { index: second, byte: JUMP, past: far }]));
        }
    }
    jobs
}

/// A jump to the end, one and two past it, with other bodies, a start and turns behind it.
fn behind_bodies() -> Vec<Job> {
    let tails: [&[u8]; 4] = [
        &[BODY, 1, SKIP, SKIP, SKIP, SKIP],
        &[BODY, 1, BODY, 2],
        &[START, 0, 1, 0, 0, 0],
        &[TURN, 0, TURN, 2],
    ];
    let mut jobs = Vec::new();
    for tail in tails {
        for target in [2, 3, 4] {
            jobs.push([&HEAD[..], &body(2, 0, JUMP, target), tail].concat());
            jobs.push([&HEAD[..], &body(2, 1, JUMPZ, target), tail].concat());
        }
    }
    jobs
}
