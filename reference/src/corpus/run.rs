//! One run of the stored corpus, and its modes, seeds and buffer lengths.

use super::Job;
use crate::dirt::{dirty, handed_over, is_kept, Buffers};
use crate::generate::buffers::{self, Lengths};
use crate::generate::dispatched::Dispatched;
use crate::generate::plan::Plan;
use crate::generate::Random;
use crate::print::text;
use crate::table::TURN;
use crate::{decode, run_or_dispatch, Mode, Outcome, Refusal};

/// The byte of a buffer that is changed after a run, by one modulo 256.
#[derive(Clone, Copy, Debug, PartialEq, Eq)]
pub enum Change {
    Nothing,
    FirstOfWork,
    LastOfWork,
    LastOfTrace,
    LastOfSnapshot,
}

impl Change {
    /// Changes the byte.
    fn apply(self, [trace, snapshot, work]: &mut Buffers) {
        let byte = match self {
            Change::Nothing => None,
            Change::FirstOfWork => work.first_mut(),
            Change::LastOfWork => work.last_mut(),
            Change::LastOfTrace => trace.last_mut(),
            Change::LastOfSnapshot => snapshot.last_mut(),
        };
        if let Some(byte) = byte {
            *byte = byte.wrapping_add(1);
        }
    }
}

/// A job, how it is run, what is changed after it, and what its buffers hold before: see `dirt`.
#[derive(Clone, Debug, PartialEq, Eq)]
pub struct Run {
    pub mode: Mode,
    /// Of a dispatched run; none for written turns.
    pub budget: Option<u64>,
    pub change: Change,
    pub seed: u8,
    /// Lengths of trace, snapshot and work.
    pub lengths: Lengths,
    pub job: Job,
}

impl Run {
    /// A byte for mode, change and order, and the seed; the lengths of job, trace, snapshot and work and the budget, 0
    /// with written turns, 2 bytes each, lowest first; the job.
    pub fn record(&self) -> Vec<u8> {
        let [trace, snapshot, work] = self.lengths.map(|length| length as u64);
        let mut record = vec![self.flags(), self.seed];
        for number in [self.job.len() as u64, trace, snapshot, work, self.budget.unwrap_or(0)] {
            let number = u16::try_from(number).expect("2 bytes hold the number");
            record.extend_from_slice(&number.to_le_bytes());
        }
        record.extend_from_slice(&self.job);
        record
    }

    /// 1 if unmonitored, twice the number of the change, 16 if dispatched, added up.
    fn flags(&self) -> u8 {
        let (is_bare, is_dispatched) = (self.mode == Mode::Unmonitored, self.budget.is_some());
        u8::from(is_bare) + 2 * self.change as u8 + 16 * u8::from(is_dispatched)
    }

    /// Runs in buffers of the lengths.
    pub fn run_in(&self, [trace, snapshot, work]: &mut Buffers) -> Outcome {
        run_or_dispatch(&self.job, self.budget, self.mode, trace, snapshot, work)
    }

    /// What the printing program prints for the run; then `kept` if every byte that has to be unchanged is
    /// unchanged and every byte that has to be 0 is 0, else `changed`: after the change, if there is one.
    pub fn text(&self) -> String {
        let before = dirty(self.seed, self.lengths);
        let mut after = before.clone();
        let outcome = self.run_in(&mut after);
        let lines = text(&self.job, &outcome, &after[0], &after[1]);
        self.change.apply(&mut after);
        let handed_over = handed_over(&self.job, &outcome, &after[1]);
        let last = if is_kept(&before, &after, handed_over) { "kept\n" } else { "changed\n" };
        lines + last
    }
}

/// The turns of a job, accepted or refused by 19, which comes before the buffers alone; of any other any number.
fn turns(job: &[u8], random: &mut Random) -> usize {
    match decode(job) {
        Ok(program) => program.turns.len(),
        Err(Refusal { number: 19, .. }) => Plan::split(job).indices(TURN).len(),
        Err(_) => random.below(40),
    }
}

/// Buffers just long enough for a job that is accepted.
pub fn exact(job: &[u8]) -> Lengths {
    buffers::exact(decode(job).map_or(0, |program| program.turns.len()))
}

/// Makes runs of jobs, from a fixed seed.
pub struct Runs(Random);

impl Runs {
    pub fn new() -> Runs {
        Runs(Random::new(0x0C04_F02A))
    }

    /// A run with these lengths.
    pub fn with(&mut self, job: &[u8], mode: Mode, lengths: Lengths) -> Run {
        let seed = self.0.below(256) as u8;
        Run { mode, budget: None, change: Change::Nothing, seed, lengths, job: job.to_vec() }
    }

    /// A run in either mode, with buffers that are mostly long enough.
    pub fn any(&mut self, job: &[u8]) -> Run {
        let mode = self.0.pick(&[Mode::Monitored, Mode::Unmonitored]);
        let turns = turns(job, &mut self.0);
        let lengths = buffers::any(&mut self.0, turns);
        self.with(job, mode, lengths)
    }

    /// The same job in both modes, with buffers that are long enough.
    pub fn pair(&mut self, job: &[u8]) -> [Run; 2] {
        let turns = turns(job, &mut self.0);
        let lengths = buffers::enough(&mut self.0, turns);
        self.both(job, lengths)
    }

    /// The same job in both modes, with these lengths.
    pub fn both(&mut self, job: &[u8], lengths: Lengths) -> [Run; 2] {
        [Mode::Monitored, Mode::Unmonitored].map(|mode| self.with(job, mode, lengths))
    }

    /// Pairs of all these jobs.
    pub fn pairs(&mut self, jobs: &[Job]) -> Vec<Run> {
        jobs.iter().flat_map(|job| self.pair(job)).collect()
    }

    /// The same dispatched job in both modes, with these lengths.
    pub fn both_dispatched(&mut self, job: &Dispatched, lengths: Lengths) -> [Run; 2] {
        self.both(&job.job, lengths).map(|run| Run { budget: Some(job.budget), ..run })
    }

    /// Pairs of all these dispatched jobs, with buffers that are long enough.
    pub fn dispatched(&mut self, jobs: &[Dispatched]) -> Vec<Run> {
        let mut list = Vec::new();
        for job in jobs {
            let lengths = buffers::enough(&mut self.0, job.turns());
            list.extend(self.both_dispatched(job, lengths));
        }
        list
    }
}
