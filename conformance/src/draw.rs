//! Fresh runs: a generated job in both modes, with its written turns and dispatched, with seeds and buffer lengths of
//! their own. A tenth of the jobs is drawn to have its handlers moved to later places: those of them that are accepted
//! and stay short enough.

use flow_reference::corpus::{Change, Run};
use flow_reference::generate::buffers::{self, Lengths};
use flow_reference::generate::dispatched::any;
use flow_reference::generate::{case, Kind, Random};
use flow_reference::output::WORK_BYTES;
use flow_reference::{decode, Mode};

use crate::late;

const MODES: [Mode; 2] = [Mode::Monitored, Mode::Unmonitored];

/// Largest lengths of jobs, and how often each is chosen. Only the last allows the longest schedules.
const LONGEST: [usize; 5] = [60, 200, 600, 2_000, usize::MAX];
const WEIGHTS: [usize; 5] = [8, 12, 20, 20, 40];

/// The four runs of the job `index` of a seed: both modes with its written turns, then dispatched. Most of the dispatched
/// jobs have lost their turns and have a budget that is accepted.
pub fn runs(seed: u64, index: u64, kind: Kind) -> Vec<Run> {
    // Other numbers than those from which the generator makes the job.
    let mut random = Random::for_case(!seed, index);
    let job = job(seed, index, kind, &mut random);
    let turns = turns(&job, &mut random);
    let written = MODES.map(|mode| run(&job, None, mode, turns, &mut random));
    let drawn = any(&job, &mut random);
    let dispatched = MODES.map(|mode| run(&drawn.job, Some(drawn.budget), mode, drawn.turns(), &mut random));
    [written, dispatched].concat()
}

/// The job `index` of a seed, with its handlers at later places or not.
pub fn job(seed: u64, index: u64, kind: Kind, random: &mut Random) -> Vec<u8> {
    let longest = LONGEST[random.weighted(&WEIGHTS)];
    let job = case(seed, index, kind, longest).job;
    if random.chance(10) {
        return late::moved(&job, random);
    }
    job
}

/// The turns of a job; of a refused one any number.
pub fn turns(job: &[u8], random: &mut Random) -> usize {
    decode(job).map_or_else(|_| random.below(40), |program| program.turns.len())
}

/// A run of a job, with buffers for about so many turns.
pub fn run(job: &[u8], budget: Option<u64>, mode: Mode, turns: usize, random: &mut Random) -> Run {
    let (lengths, seed) = (lengths(random, turns), random.below(256) as u8);
    Run { mode, budget, change: Change::Nothing, seed, lengths, job: job.to_vec() }
}

/// Exact, a little longer or much longer; of about a quarter of the runs at least one too short: by one byte, by
/// many, or empty. In a fifth of the runs the work buffer, unless it is too short, is much longer.
fn lengths(random: &mut Random, turns: usize) -> Lengths {
    let mut lengths = buffers::any(random, turns);
    if random.chance(10) {
        lengths = lengths.map(|length| length + random.below(3_000));
    }
    if random.chance(20) && lengths[2] >= WORK_BYTES {
        lengths[2] = long_work(random);
    }
    lengths
}

/// The length of a work buffer that is much longer: any, up to some more than 16,384 bytes, or just about these.
fn long_work(random: &mut Random) -> usize {
    if random.chance(30) {
        return random.pick(&[16_383, 16_384, 16_385]);
    }
    WORK_BYTES + random.below(13_000)
}
