//! What a run hands over: refusal or answer.

/// Whether the permissions are enforced.
#[derive(Clone, Copy, Debug, PartialEq, Eq, PartialOrd, Ord)]
pub enum Mode {
    /// 01: watched.
    Monitored,
    /// 01: bare.
    Unmonitored,
}

/// Kinds of trace entries.
pub mod kind {
    pub const OTHER: u8 = 0;
    pub const BEGIN: u8 = 1;
    pub const FINISH: u8 = 2;
    pub const READ: u8 = 3;
    pub const WRITE: u8 = 4;
    pub const CALL: u8 = 5;
    pub const SEND: u8 = 6;
}

/// Stops of a run.
pub mod stop {
    pub const TURNS_OUT: u8 = 0;
    pub const FORBIDDEN: u8 = 1;
    pub const NOT_READY: u8 = 2;
    pub const QUEUE_FULL: u8 = 3;
    /// Of dispatched runs alone.
    pub const NOBODY_READY: u8 = 4;
}

/// A trace entry.
#[derive(Clone, Copy, Debug, Default, PartialEq, Eq)]
pub struct Entry {
    pub node: u8,
    pub kind: u8,
    pub number: u8,
    pub value: u32,
}

impl Entry {
    /// Number and value 0.
    pub const fn plain(node: u8, kind: u8) -> Entry {
        Entry { node, kind, number: 0, value: 0 }
    }
}

/// The answer of an accepted run.
#[derive(Clone, Copy, Debug, PartialEq, Eq)]
pub struct Answer {
    pub stop: u8,
    /// Completed turns.
    pub turns: usize,
    pub attempted: Entry,
    /// Of a dispatched run: the examined nodes of all its choices; a fruitless one has none.
    pub examined: Option<usize>,
}

/// Why a job was turned away, and at which offset.
#[derive(Clone, Copy, Debug, PartialEq, Eq)]
pub struct Refusal {
    pub number: u8,
    pub place: usize,
}

#[derive(Clone, Copy, Debug, PartialEq, Eq)]
pub enum Outcome {
    Refused(Refusal),
    Ran(Answer),
}

impl Outcome {
    /// In nine numbers: refusal and place; stop, completed turns; node, kind, number and value of the attempted entry;
    /// the examined total, 0 with written turns.
    pub fn numbers(&self) -> [u64; 9] {
        match *self {
            Outcome::Refused(Refusal { number, place }) => [number.into(), place as u64, 0, 0, 0, 0, 0, 0, 0],
            Outcome::Ran(Answer { stop, turns, attempted, examined }) => [
                0,
                0,
                stop.into(),
                turns as u64,
                attempted.node.into(),
                attempted.kind.into(),
                attempted.number.into(),
                attempted.value.into(),
                examined.unwrap_or(0) as u64,
            ],
        }
    }
}
