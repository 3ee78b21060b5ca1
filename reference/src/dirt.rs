//! Dirty buffers: what they hold before a run, and whether a run kept what it has to keep.

use crate::decode::decode;
use crate::generate::buffers::Lengths;
use crate::outcome::Outcome;
use crate::output::{snapshot_length, ENTRY_BYTES, WORK_BYTES};

/// Trace, snapshot and work.
pub type Buffers = [Vec<u8>; 3];

/// Byte `i` is `seed + 31 * i` modulo 256.
pub fn dirt(seed: u8, length: usize) -> Vec<u8> {
    let period: Vec<u8> = (0..=255u8).map(|i| seed.wrapping_add(i.wrapping_mul(31))).collect();
    let mut bytes = period.repeat(length.div_ceil(256));
    bytes.truncate(length);
    bytes
}

/// The three buffers of a run before it.
pub fn dirty(seed: u8, lengths: Lengths) -> Buffers {
    lengths.map(|length| dirt(seed, length))
}

/// How many bytes of each buffer a run hands over; a refusal none.
pub fn handed_over(job: &[u8], outcome: &Outcome, snapshot: &[u8]) -> Lengths {
    let Outcome::Ran(answer) = outcome else { return [0; 3] };
    let program = decode(job).expect("the job was accepted");
    [ENTRY_BYTES * answer.turns, snapshot_length(&program, snapshot), WORK_BYTES]
}

/// Every byte behind those handed over is what it was, and those of the work buffer are 0.
pub fn is_kept(before: &Buffers, after: &Buffers, handed_over: Lengths) -> bool {
    let same = |buffer: usize| {
        let from = handed_over[buffer];
        before[buffer][from..] == after[buffer][from..]
    };
    (0..3).all(same) && after[2][..handed_over[2]].iter().all(|&byte| byte == 0)
}
