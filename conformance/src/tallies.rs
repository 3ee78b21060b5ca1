//! Tallies by both sides: of what a run left, and of bytes that no run left.

use flow_reference::generate::Random;
use leqsumir::COUNTS;

use crate::{library, reference};

/// What a tally is made from.
#[derive(Clone, Copy)]
pub struct Input<'a> {
    pub job: &'a [u8],
    pub turns: u64,
    pub trace: &'a [u8],
    pub snapshot: &'a [u8],
}

/// Counts the messages of each node; the three numbers of the answer.
type Side = fn(&Input, &mut [u64; COUNTS]) -> [u64; 3];

/// Guard numbers on either side of the counts.
const GUARD: usize = 16;

/// What a side leaves: its answer, and the counts between guard numbers, all of which were `before`.
pub fn left_by(side: Side, input: &Input, before: u64) -> ([u64; 3], Vec<u64>) {
    let mut numbers = vec![before; GUARD + COUNTS + GUARD];
    let counts: &mut [u64] = &mut numbers[GUARD..GUARD + COUNTS];
    let answer = side(input, counts.try_into().expect("as many counts as there can be"));
    (answer, numbers)
}

/// What the library leaves otherwise than the second implementation, if anything.
fn difference(input: &Input, before: u64) -> Option<String> {
    let (expected, expected_numbers) = left_by(reference::tally, input, before);
    let (found, numbers) = left_by(library::tally, input, before);
    if found == expected && numbers == expected_numbers {
        return None;
    }
    let Input { turns, trace, snapshot, .. } = input;
    let lengths = format!("{} bytes of trace, {} of snapshot", trace.len(), snapshot.len());
    let first = numbers.iter().zip(&expected_numbers).position(|(found, expected)| found != expected);
    let place = first.map_or(String::from("counts alike"), |at| {
        let place = at as isize - GUARD as isize;
        format!("count {place} is {}, expected {}", numbers[at], expected_numbers[at])
    });
    Some(format!("tally, {turns} turns, {lengths}: answer {found:?}, expected {expected:?}; {place}"))
}

/// A tally of what a run left, and one of the same damaged: how many they are, and a line for each that differs.
pub fn compare(input: &Input, random: &mut Random) -> (u64, Vec<String>) {
    let (trace, snapshot) = (garbled(input.trace, random), garbled(input.snapshot, random));
    let damaged = Input { turns: turns(input, random), trace: &trace, snapshot: &snapshot, ..*input };
    let inputs = [input, &damaged];
    let lines = inputs.iter().filter_map(|input| difference(input, random.next_u64())).collect();
    (inputs.len() as u64, lines)
}

/// A number of turns: the run's, about as many, about as many as the trace has room for, or any, up to the largest.
fn turns(input: &Input, random: &mut Random) -> u64 {
    let room = (input.trace.len() / 7) as u64;
    match random.below(8) {
        0 | 1 => input.turns,
        2 => (input.turns + 1).saturating_sub(random.below(3) as u64),
        3 => (room + 1).saturating_sub(random.below(3) as u64),
        4 => random.below(5_000) as u64,
        5 => input.turns | 1 << random.between(13, 63),
        6 => u64::MAX - random.below(3) as u64,
        _ => random.next_u64(),
    }
}

/// Bytes that are cut, changed at some places, or small throughout, so that each can be a node, a kind, a port or a count.
fn garbled(bytes: &[u8], random: &mut Random) -> Vec<u8> {
    let mut bytes = bytes.to_vec();
    if random.chance(40) {
        bytes.truncate(random.below(bytes.len() + 1));
    }
    let limit = random.pick(&[2, 7, 8, 34, 255]);
    if random.chance(30) {
        bytes.iter_mut().for_each(|byte| *byte %= limit);
    }
    if random.chance(50) && !bytes.is_empty() {
        for _ in 0..random.below(60) {
            let at = random.below(bytes.len());
            bytes[at] = random.next_u64() as u8 % limit;
        }
    }
    bytes
}
