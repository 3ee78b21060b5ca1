//! What several tests need.

#![allow(dead_code)]

pub mod made;

use std::collections::HashSet;
use std::ops::RangeInclusive;

use flow_reference::print::print;
use flow_reference::{decode, hex, run_or_dispatch, Mode, Outcome, Refusal};

pub const MODES: [Mode; 2] = [Mode::Monitored, Mode::Unmonitored];

pub fn bytes(text: &str) -> Vec<u8> {
    hex::decode(text).expect("hexadecimal text")
}

/// K1 of the paper, 65 bytes.
pub fn k1() -> Vec<u8> {
    let mut job = bytes(
        "01 02 02  10 02 00 05 00 00 00  11 09 00 00 00  20 00 00 01  32 00 00  31 01 00 07 00 00 00
         40 00 42 46 00 49 00  40 01 42 4A 00  50 00 02 00 00 00",
    );
    job.extend([0x60, 0].repeat(5));
    job.extend([0x60, 1].repeat(4));
    job
}

/// What is printed of a job with its written turns but the tally lines, which have tests of their own.
pub fn print_untallied(job: &[u8], mode: Mode) -> String {
    let text = print(job, mode);
    let rest = text.split_inclusive('\n').filter(|line| !line.starts_with("tally "));
    rest.collect()
}

/// What a run left in its buffers.
#[derive(Clone, Debug, PartialEq, Eq)]
pub struct Ran {
    pub outcome: Outcome,
    pub trace: Vec<u8>,
    pub snapshot: Vec<u8>,
    pub work: Vec<u8>,
}

/// Runs with buffers of these lengths, filled with the byte `dirt`.
pub fn run_dirty(job: &[u8], mode: Mode, lengths: [usize; 3], dirt: u8) -> Ran {
    run_or_dispatch_dirty(job, None, mode, lengths, dirt)
}

/// The same dispatched.
pub fn dispatch_dirty(job: &[u8], budget: u64, mode: Mode, lengths: [usize; 3], dirt: u8) -> Ran {
    run_or_dispatch_dirty(job, Some(budget), mode, lengths, dirt)
}

/// Dispatched if there is a budget.
pub fn run_or_dispatch_dirty(
    job: &[u8],
    budget: Option<u64>,
    mode: Mode,
    lengths: [usize; 3],
    dirt: u8,
) -> Ran {
    let [mut trace, mut snapshot, mut work] = lengths.map(|length| vec![dirt; length]);
    let outcome = run_or_dispatch(job, budget, mode, &mut trace, &mut snapshot, &mut work);
    Ran { outcome, trace, snapshot, work }
}

/// What the decoder and both runs say to a job, whatever the buffers: number and place, or none if they accept it.
pub fn refusal(job: &[u8]) -> Option<(u8, usize)> {
    let refusal = decode(job).err();
    for (mode, lengths) in MODES.into_iter().flat_map(|mode| [(mode, [28_672, 3_136, 4_096]), (mode, [0; 3])])
    {
        let outcome = run_dirty(job, mode, lengths, 0x5A).outcome;
        match refusal {
            Some(refusal) => assert_eq!(outcome, Outcome::Refused(refusal)),
            None if lengths[1] == 0 => {
                assert!(matches!(outcome, Outcome::Refused(Refusal { number: 10..=12, .. })))
            }
            None => assert!(matches!(outcome, Outcome::Ran(_))),
        }
    }
    refusal.map(|Refusal { number, place }| (number, place))
}

/// A job of pieces in hexadecimal, each so often.
pub fn job(pieces: &[(&str, usize)]) -> Vec<u8> {
    pieces.iter().flat_map(|&(piece, times)| bytes(piece).repeat(times)).collect()
}

/// The commands of a valid job, with widths written down here once more.
pub fn commands(mut job: &[u8]) -> Vec<&[u8]> {
    let mut list = Vec::new();
    while let Some(byte) = job.first() {
        let length = match byte {
            0x01 | 0x02 | 0x42 | 0x4B => 1,
            0x40 | 0x43 | 0x44 | 0x46..=0x4A | 0x60 => 2,
            0x30 | 0x32 | 0x33 => 3,
            0x20 => 4,
            0x11 | 0x41 | 0x45 => 5,
            0x50 => 6,
            0x12 => 10,
            0x34 => 11,
            _ => 7,
        };
        let (command, rest) = job.split_at(length);
        list.push(command);
        job = rest;
    }
    list
}

/// The 32-bit number at the end of a command.
pub fn number(command: &[u8]) -> u32 {
    u32::from_le_bytes(command[command.len() - 4..].try_into().unwrap())
}

/// The permissions of a job: the bytes of its commands ANY, ARG, READ, WRITE and SPAN.
pub struct Permissions(HashSet<Vec<u8>>);

impl Permissions {
    pub fn of(job: &[u8]) -> Permissions {
        let permissions = commands(job).into_iter().filter(|command| command[0] / 16 == 3);
        Permissions(permissions.map(<[u8]>::to_vec).collect())
    }

    /// Whether an entry of this kind is permitted.
    pub fn permit(&self, node: u8, kind: u8, number: u8, value: u32) -> bool {
        let has = |byte: u8| self.0.contains(&vec![byte, node, number]);
        let mut arg = vec![0x31, node, number];
        arg.extend(value.to_le_bytes());
        match kind {
            3 => has(0x32),
            4 => has(0x33),
            5 => {
                has(0x30)
                    || self.0.contains(&arg)
                    || self.ranges(node, number).any(|range| range.contains(&value))
            }
            _ => true,
        }
    }

    /// The ranges of the SPAN commands of a node and function.
    pub fn ranges(&self, node: u8, function: u8) -> impl Iterator<Item = RangeInclusive<u32>> + '_ {
        let spans = self.0.iter().filter(move |command| command[..3] == [0x34, node, function]);
        spans.map(|span| number(&span[..7])..=number(span))
    }
}
