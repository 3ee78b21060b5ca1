//! Full handlers, every command of which is made, and one that lies near the end of the longest job.

use super::Job;
use crate::table::{self, *};

const NODES: u8 = MAX_NODES as u8;

pub fn jobs() -> Vec<Job> {
    vec![all_made(), late(0)]
}

/// A full handler: sums that are written to variable 0, numbers that function 0 is called with, and at its end a
/// send. No two of the numbers are equal, so that the entries tell which command was made.
fn handler(node: u8) -> Job {
    let command = |position: u8| {
        let number = u32::from(node) << 24 | u32::from(position) << 8;
        match position % 4 {
            0 => table::write(ADD, &[number]),
            1 => table::write(PUT, &[0]),
            2 => table::write(SET, &[number]),
            _ if usize::from(position) == MAX_BODY_COMMANDS - 1 => table::write(SEND, &[0]),
            _ => table::write(CALL, &[0]),
        }
    };
    let commands = (0..MAX_BODY_COMMANDS as u8).flat_map(command);
    [BODY, node].into_iter().chain(commands).collect()
}

/// As many turns as a full handler takes: it begins, makes its commands and finishes.
fn turns(node: u8) -> Job {
    [TURN, node].repeat(1 + MAX_BODY_COMMANDS + 1)
}

/// Every node makes its handler; the first node of each flow sends to the three others. The last node's body is
/// the first.
fn all_made() -> Job {
    let mut job = [&[FLOW][..], &[NODE; 4]].concat().repeat(MAX_FLOWS);
    job.extend([VAR, 2, 0, 5, 0, 0, 0, FUN, 9, 0, 0, 0]);
    let others = (0..NODES).filter(|node| node % 4 != 0);
    job.extend(others.flat_map(|node| [WIRE, node / 4 * 4, 0, node]));
    job.extend((0..NODES).flat_map(|node| [ANY, node, 0, WRITE, node, 0]));
    job.extend((0..NODES).rev().flat_map(handler));
    job.extend((0..NODES).step_by(4).flat_map(|node| [START, node, 1, 0, 0, 0]));
    job.extend((0..NODES).flat_map(turns));
    job
}

/// The last node makes its handler, which stands behind all declarations and as many wires of other nodes as leave room
/// for it. Of the functions it calls 0, and may call this one.
pub fn late(function: u8) -> Job {
    let (variables, functions, last) = (0..MAX_VARIABLES as u8, 0..MAX_FUNCTIONS as u8, NODES - 1);
    let mut job = [&[FLOW][..], &[NODE; MAX_NODES]].concat();
    job.extend(variables.flat_map(|variable| [VAR, 2, 0, variable, 0, 0, 0]));
    job.extend(functions.flat_map(|function| [FUN, function, 0, 0, 0]));
    let lists = vec![ANY, last, function, WRITE, last, 0];
    let tail = [lists, handler(last), vec![START, last, 1, 0, 0, 0], turns(last)].concat();
    let room = (MAX_JOB_BYTES - job.len() - tail.len()) / table::write(WIRE, &[0; 3]).len();
    let ports = (0..last).flat_map(|node| (0..PORTS as u8).map(move |port| [WIRE, node, port]));
    let wires = ports.flat_map(|[wire, node, port]| (0..NODES).map(move |target| [wire, node, port, target]));
    job.extend(wires.take(room).flatten());
    [job, tail].concat()
}
