//! Buffer lengths: exact, longer, short.

use super::random::Random;
use crate::output::{ENTRY_BYTES, SNAPSHOT_BYTES, WORK_BYTES};

/// Lengths of trace, snapshot and work.
pub type Lengths = [usize; 3];

/// Just long enough.
pub fn exact(turns: usize) -> Lengths {
    [ENTRY_BYTES * turns, SNAPSHOT_BYTES, WORK_BYTES]
}

/// Long enough.
pub fn enough(random: &mut Random, turns: usize) -> Lengths {
    exact(turns).map(|length| length + random.pick(&[0, 0, 1, 6, 7, 64]))
}

/// At least one of them too short: by one byte, by some, or empty.
pub fn short(random: &mut Random, turns: usize) -> Lengths {
    let mut lengths = enough(random, turns);
    let exact = exact(turns);
    let sets: [&[usize]; 7] = [&[0], &[1], &[2], &[0, 1], &[0, 2], &[1, 2], &[0, 1, 2]];
    let set = sets[random.weighted(&[30, 20, 20, 8, 8, 8, 6])];
    for &buffer in set {
        lengths[buffer] = match random.below(8) {
            0 => 0,
            1 => random.below(exact[buffer].max(1)),
            _ => exact[buffer].saturating_sub(1),
        };
    }
    lengths
}

/// Mostly long enough; for a job that may be refused before the buffers matter.
pub fn any(random: &mut Random, turns: usize) -> Lengths {
    if random.chance(75) {
        enough(random, turns)
    } else {
        short(random, turns)
    }
}
