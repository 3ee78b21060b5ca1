//! Tallies (02, S-12) of dispatched runs, for what an entry and a node take.

use flow_reference::Mode;

use crate::dispatched::{Dispatched, Shape, MOST};
use crate::runs::{Bench, Case, Engine};

/// Which job is run, with the largest budget, and how many entries of the trace are counted.
#[derive(Clone, Copy, Debug, PartialEq, Eq)]
pub struct Tallied {
    pub shape: Shape,
    pub turns: u64,
}

/// All of them with the words that name them.
pub const TALLIED: [(&str, Tallied); 4] = [
    ("entries", Tallied { shape: Shape::Script, turns: MOST }),
    ("no-entries", Tallied { shape: Shape::Script, turns: 0 }),
    ("nodes", Tallied { shape: Shape::Idle, turns: 0 }),
    ("node", Tallied { shape: Shape::Lone, turns: 0 }),
];

impl Tallied {
    /// The one that a word names.
    pub fn named(word: &str) -> Option<Tallied> {
        TALLIED.iter().find(|(name, _)| *name == word).map(|&(_, tallied)| tallied)
    }

    /// After a bare run of the job, of which tallies can be made.
    pub fn after_run(self, engine: Engine) -> Bench {
        let case = Case::Dispatched(Dispatched { shape: self.shape, budget: MOST });
        let mut bench = Bench::new(engine, Mode::Unmonitored, case, 0);
        bench.run();
        bench
    }
}
