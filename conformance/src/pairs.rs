//! Pairs of runs that differ in the start of a variable nobody may read (02, S-13).

use flow_reference::corpus::Run;
use flow_reference::generate::dispatched::any;
use flow_reference::generate::secret::{self, OtherStart};
use flow_reference::generate::{Kind, Random};
use flow_reference::Mode;

use crate::draw;

/// Two runs that differ in the start of one variable alone.
pub struct Pair {
    pub other: OtherStart,
    pub first: Run,
    pub second: Run,
}

impl Pair {
    /// A run and a second one of the job with the other start; none if the job does not declare the variable.
    pub fn new(first: Run, other: OtherStart) -> Option<Pair> {
        let second = Run { job: other.second(&first.job)?, ..first.clone() };
        Some(Pair { other, first, second })
    }

    /// The same jobs in the same buffers, unmonitored.
    pub fn unmonitored(&self) -> Pair {
        let [first, second] =
            [&self.first, &self.second].map(|run| Run { mode: Mode::Unmonitored, ..run.clone() });
        Pair { first, second, ..*self }
    }
}

/// The pairs of the job `index` of a seed, monitored: with its written turns, and dispatched with one budget for both.
/// None if the job has no shared variable.
pub fn pairs(seed: u64, index: u64, kind: Kind) -> Option<[Pair; 2]> {
    let mut random = Random::for_case(!seed, index);
    let job = draw::job(seed, index, kind, &mut random);
    let (job, other) = secret::draw(&job, &mut random)?;
    let turns = draw::turns(&job, &mut random);
    let written = draw::run(&job, None, Mode::Monitored, turns, &mut random);
    let drawn = any(&job, &mut random);
    let dispatched = draw::run(&drawn.job, Some(drawn.budget), Mode::Monitored, drawn.turns(), &mut random);
    Some([Pair::new(written, other)?, Pair::new(dispatched, other)?])
}
