//! Refusals 2 and 3: every byte as a command, and operands that run past the end.

use super::edits::tour;
use super::worlds::{before, behind, command, middle, small};
use super::Job;
use crate::table::*;

pub fn jobs() -> Vec<Job> {
    [every_byte(), unknown_everywhere(), cuts()].concat()
}

/// Every byte alone, in a body with zeros behind it, and behind a turn.
fn every_byte() -> Vec<Job> {
    let body: &[u8] = &[FLOW, NODE, BODY, 0];
    let turn: &[u8] = &[FLOW, NODE, FUN, 1, 0, 0, 0, TURN, 0];
    let places = [(&[][..], &[][..]), (body, &[0; 6]), (turn, &[])];
    let at = |(head, tail): (&[u8], &[u8])| -> Vec<Job> {
        (0..=255).map(|byte| [head, &[byte], tail].concat()).collect()
    };
    places.into_iter().flat_map(at).collect()
}

/// A byte that is no command of 01 before each command of a valid job, and at its end. Two of them are REPLY and SPAN now.
fn unknown_everywhere() -> Vec<Job> {
    let unknown = [0x00, 0x03, 0x0F, 0x12, 0x21, 0x34, 0x3F, 0x4C, 0x51, 0x61, 0x70, 0x80, 0xFF];
    let commands = tour();
    let with = |index: usize| {
        let (head, tail) = commands.split_at(index);
        [head.concat(), vec![unknown[index % unknown.len()]], tail.concat()].concat()
    };
    (0..=commands.len()).map(with).collect()
}

/// Every command cut at each of its operand bytes: alone, behind declarations, and behind a higher group.
fn cuts() -> Vec<Job> {
    let mut jobs = Vec::new();
    for row in commands_of_01() {
        let command = command(&small(), row.byte);
        let heads =
            [vec![], before(&small(), row.byte), before(&middle(), row.byte), behind(&small(), &[TURN, 0])];
        for length in 1..command.len() {
            jobs.extend(heads.iter().map(|head| [head, &command[..length]].concat()));
        }
    }
    jobs
}
