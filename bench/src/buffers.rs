//! The three buffers of a run, long enough for every job, and the counts of its tally.

use leqsumir::{COUNTS, SNAPSHOT_BYTES, TRACE_BYTES, WORK_BYTES};

/// On a page of its own, so that the place of a buffer is the same for both implementations.
#[repr(align(4096))]
#[derive(PartialEq, Eq)]
pub struct Buffers {
    pub trace: [u8; TRACE_BYTES],
    pub snapshot: [u8; SNAPSHOT_BYTES],
    pub work: [u8; WORK_BYTES],
    pub counts: [u64; COUNTS],
}

impl Buffers {
    /// Buffers that hold this byte everywhere.
    pub fn filled(byte: u8) -> Box<Buffers> {
        Box::new(Buffers {
            trace: [byte; TRACE_BYTES],
            snapshot: [byte; SNAPSHOT_BYTES],
            work: [byte; WORK_BYTES],
            counts: [u64::from_ne_bytes([byte; 8]); COUNTS],
        })
    }
}
