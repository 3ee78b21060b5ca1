//! Bytes between guard bytes.

use std::fmt;

use flow_reference::dirt::dirt;

/// Guard bytes on either side. The dirt repeats after 256 bytes, so that a guarded buffer holds the same
/// dirt as one without guards.
const GUARD: usize = 256;

/// A slice to hand over, and what lies around it.
pub struct Guarded {
    bytes: Vec<u8>,
    length: usize,
}

impl Guarded {
    /// A buffer full of dirt.
    pub fn dirty(seed: u8, length: usize) -> Guarded {
        Guarded { bytes: dirt(seed, GUARD + length + GUARD), length }
    }

    /// These bytes, with dirt around them.
    pub fn holding(bytes: &[u8], seed: u8) -> Guarded {
        let mut guarded = Guarded::dirty(seed, bytes.len());
        guarded.slice().copy_from_slice(bytes);
        guarded
    }

    pub fn slice(&mut self) -> &mut [u8] {
        &mut self.bytes[GUARD..GUARD + self.length]
    }

    /// The slice, to be read.
    pub fn bytes(&self) -> &[u8] {
        &self.bytes[GUARD..GUARD + self.length]
    }

    /// Where the bytes, guards included, are not the expected ones.
    pub fn difference(&self, expected: &Guarded) -> Option<Difference> {
        if self.bytes == expected.bytes {
            return None;
        }
        let pairs = self.bytes.iter().zip(&expected.bytes).enumerate();
        let mut differing = pairs.filter(|(_, (found, expected))| found != expected);
        let (at, (&found, &expected)) = differing.next()?;
        Some(Difference {
            count: 1 + differing.count(),
            place: at as isize - GUARD as isize,
            found,
            expected,
        })
    }
}

/// How many bytes differ, and the first of them. Its place is counted from the slice's start: below 0 it
/// lies before the slice, at the slice's length or above after it.
pub struct Difference {
    count: usize,
    place: isize,
    found: u8,
    expected: u8,
}

impl fmt::Display for Difference {
    fn fmt(&self, f: &mut fmt::Formatter) -> fmt::Result {
        let Difference { count, place, found, expected } = self;
        write!(f, "byte {place} is {found}, expected {expected}; {count} in all")
    }
}
