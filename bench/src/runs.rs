//! Whole runs of a job, by either implementation.

use std::hint::black_box;
use std::time::{Duration, Instant};

use flow_reference::Mode;

use crate::buffers::Buffers;
use crate::dispatched::{Dispatched, DISPATCHED};
use crate::replies::{Form, FORMS};
use crate::script::Script;
use crate::{job, large, lists, proved, reference};

/// Which implementation runs.
#[derive(Clone, Copy, Debug, PartialEq, Eq)]
pub enum Engine {
    Proved,
    Reference,
}

impl Engine {
    /// The one that a word names.
    pub fn named(word: &str) -> Option<Engine> {
        match word {
            "proved" => Some(Engine::Proved),
            "reference" => Some(Engine::Reference),
            _ => None,
        }
    }
}

/// Which job is run.
#[derive(Clone, Copy, Debug, PartialEq, Eq)]
pub enum Case {
    /// All 4,096 turns, each of which completes.
    Turns,
    /// As many TURN commands, the first of them for a node that is not ready: all are decoded, none is made.
    Stopped,
    /// The job without its TURN commands.
    None,
    /// The large job, which has no TURN commands.
    Large,
    /// 256 ARG and SPAN commands of 16 nodes with four functions each; 4,096 turns, each of which completes.
    Spread,
    /// The same number of one node and one function.
    Single,
    /// A job with 128 REPLY commands, or the same job without them or without turns.
    Replies(Form),
    /// A dispatched run.
    Dispatched(Dispatched),
}

pub const MODES: [Mode; 2] = [Mode::Monitored, Mode::Unmonitored];

/// Every case.
pub fn cases() -> Vec<Case> {
    let cases = [Case::Turns, Case::Stopped, Case::None, Case::Large, Case::Spread, Case::Single];
    let replies = FORMS.map(|(_, form)| Case::Replies(form));
    cases
        .into_iter()
        .chain(replies)
        .chain(DISPATCHED.map(|(_, dispatched)| Case::Dispatched(dispatched)))
        .collect()
}

/// Every case, monitored and bare.
pub fn all() -> impl Iterator<Item = (Mode, Case)> {
    MODES.into_iter().flat_map(|mode| cases().into_iter().map(move |case| (mode, case)))
}

impl Case {
    /// The job's bytes.
    pub fn job(self) -> Vec<u8> {
        let mut job = match self {
            Case::None => job::without_turns(),
            Case::Large => large::job(),
            Case::Spread => lists::spread(),
            Case::Single => lists::single(),
            Case::Replies(form) => form.job(),
            Case::Dispatched(dispatched) => dispatched.job(),
            Case::Turns | Case::Stopped => Script::new().job,
        };
        if self == Case::Stopped {
            // Node 1 has no message at the start.
            job[job::without_turns().len() + 1] = 1;
        }
        job
    }

    /// The budget, if it is a dispatched run.
    pub fn budget(self) -> Option<u64> {
        match self {
            Case::Dispatched(dispatched) => Some(dispatched.budget),
            _ => None,
        }
    }
}

/// A page of memory.
#[repr(align(4096))]
struct Page([u8; 4096]);

/// Calls with a stack that lies at the same place of a page every time: how many instructions memcpy takes
/// depends on the place, and the environment's size would shift it.
#[inline(never)]
fn on_new_page<T>(work: impl FnOnce() -> T) -> T {
    let page = Page([0; 4096]);
    black_box(&page.0);
    let result = work();
    black_box(&page.0);
    result
}

/// One run, again and again, in the same buffers.
pub struct Bench {
    engine: Engine,
    mode: Mode,
    /// Of a dispatched run.
    budget: Option<u64>,
    job: Vec<u8>,
    pub buffers: Box<Buffers>,
}

impl Bench {
    /// The buffers hold this byte everywhere before the first run.
    pub fn new(engine: Engine, mode: Mode, case: Case, byte: u8) -> Bench {
        Bench::dispatched(engine, mode, case.budget(), case.job(), byte)
    }

    /// The same for any job with its written turns.
    pub fn of(engine: Engine, mode: Mode, job: Vec<u8>, byte: u8) -> Bench {
        Bench::dispatched(engine, mode, None, job, byte)
    }

    /// The same for any job, dispatched if there is a budget.
    pub fn dispatched(engine: Engine, mode: Mode, budget: Option<u64>, job: Vec<u8>, byte: u8) -> Bench {
        Bench { engine, mode, budget, job, buffers: Buffers::filled(byte) }
    }

    /// Runs once; the answer. Always a call: the stack it takes does not depend on the rest of the harness.
    #[inline(never)]
    pub fn run(&mut self) -> [u64; 9] {
        self.run_here()
    }

    /// The same, never a call: the instructions it takes do not depend on the rest of the harness.
    #[inline(always)]
    fn run_here(&mut self) -> [u64; 9] {
        // The compiler may not take a run's result from the run before.
        let job = black_box(&self.job);
        match self.engine {
            Engine::Proved => proved::run(job, self.budget, self.mode, &mut self.buffers),
            Engine::Reference => reference::run(job, self.budget, self.mode, &mut self.buffers),
        }
    }

    /// Counts the messages of each node from what the last run left, so many entries of it; the answer. Always a call.
    #[inline(never)]
    pub fn tally(&mut self, turns: u64) -> [u64; 3] {
        self.tally_here(turns)
    }

    /// The same, never a call.
    #[inline(always)]
    fn tally_here(&mut self, turns: u64) -> [u64; 3] {
        let job = black_box(&self.job);
        match self.engine {
            Engine::Proved => proved::tally(job, turns, &mut self.buffers),
            Engine::Reference => reference::tally(job, turns, &mut self.buffers),
        }
    }

    /// Counts `count` times; the nodes of all tallies.
    pub fn tallies(&mut self, turns: u64, count: u32) -> u64 {
        on_new_page(|| (0..count).map(|_| self.tally_here(turns)[2]).sum())
    }

    /// Runs `count` times; the completed turns of all runs.
    pub fn runs(&mut self, count: u32) -> u64 {
        on_new_page(|| (0..count).map(|_| self.run_here()[3]).sum())
    }

    /// The time of the quickest of `count` runs.
    pub fn quickest(&mut self, count: u32) -> Duration {
        let mut timed = || {
            let start = Instant::now();
            black_box(self.run_here());
            start.elapsed()
        };
        on_new_page(|| (0..count).map(|_| timed()).min().unwrap_or_default())
    }
}
