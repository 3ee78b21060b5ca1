//! Cases: a job, a mode and buffer lengths.

use super::buffers::{self, Lengths};
use super::count;
use super::damage::{damage, Damaged};
use super::noise;
use super::plan::Plan;
use super::random::Random;
use super::reason::Reason;
use super::valid;
use crate::outcome::{Mode, Refusal};
use crate::table::{MAX_JOB_BYTES, TURN};

/// Which cases are wanted.
#[derive(Clone, Copy, Debug, PartialEq, Eq)]
pub enum Kind {
    /// Accepted jobs with buffers that are long enough.
    Valid,
    /// Damaged jobs and short buffers. Blind damage may leave a job acceptable.
    Damaged,
    Mixed,
}

#[derive(Clone, Debug)]
pub struct Case {
    pub job: Vec<u8>,
    pub mode: Mode,
    /// Buffer lengths: trace, snapshot, work.
    pub lengths: Lengths,
    /// Deliberate damage and the refusal that it must bring.
    pub damage: Option<(Reason, Refusal)>,
}

/// The case `index` of a seed, with a job of at most `max_bytes` bytes, which are at least 1.
pub fn case(seed: u64, index: u64, kind: Kind, max_bytes: usize) -> Case {
    draw_case(&mut Random::for_case(seed, index), kind, max_bytes)
}

/// The same for a generator of numbers.
pub fn draw_case(random: &mut Random, kind: Kind, max_bytes: usize) -> Case {
    let is_valid = match kind {
        Kind::Valid => true,
        Kind::Damaged => false,
        Kind::Mixed => random.chance(60),
    };
    if is_valid {
        return valid_case(random, max_bytes);
    }
    let ways = if random.draws_unused { WAYS.len() } else { WAYS.len() - 1 };
    match random.weighted(&WAYS[..ways]) {
        0 => damaged_case(random, max_bytes, Reason::draw),
        1 => blind_case(random, max_bytes, |job, random| noise::flip(job, random)),
        2 => blind_case(random, max_bytes, noise::cut),
        3 => soup_case(random, max_bytes),
        4 => short_case(random, max_bytes),
        _ => damaged_case(random, max_bytes, Reason::draw_unused),
    }
}

/// How often a case that is not valid is made in each way; the last, unused permissions, is an eighth of mixed cases.
const WAYS: [usize; 6] = [60, 15, 6, 5, 14, 45];

fn mode(random: &mut Random) -> Mode {
    if random.chance(65) {
        Mode::Monitored
    } else {
        Mode::Unmonitored
    }
}

fn turns(plan: &Plan) -> usize {
    plan.indices(TURN).len()
}

fn valid_plan(random: &mut Random, max_bytes: usize) -> Plan {
    if max_bytes > 600 && random.chance(3) {
        if let Some(mut plan) = full_plan(random).filter(|plan| plan.length() <= max_bytes) {
            plan.drop_unused();
            return plan;
        }
    }
    let mut plan = valid::valid(random, max_bytes);
    if plan.nodes() > 0 && random.chance(4) {
        let count = turns(&plan);
        valid::random_turns(&mut plan, random, count);
    }
    plan.drop_unused();
    plan
}

/// A job that reaches a largest count exactly.
fn full_plan(random: &mut Random) -> Option<Plan> {
    let mut plan = valid::medium(random);
    plan.drop_unused();
    let counts = count::drawn_with(random);
    match random.below(counts.len() + 1) {
        0 => count::pad(&mut plan, random, MAX_JOB_BYTES)?,
        which => {
            count::fill(&mut plan, random, counts[which - 1])?;
        }
    }
    Some(plan)
}

fn valid_case(random: &mut Random, max_bytes: usize) -> Case {
    let plan = valid_plan(random, max_bytes);
    let lengths = buffers::enough(random, turns(&plan));
    Case { job: plan.bytes(), mode: mode(random), lengths, damage: None }
}

fn short_case(random: &mut Random, max_bytes: usize) -> Case {
    let plan = valid_plan(random, max_bytes);
    let lengths = buffers::short(random, turns(&plan));
    Case { job: plan.bytes(), mode: mode(random), lengths, damage: None }
}

/// After so many jobs that are too long or do not suit the reason, an empty job has to do.
const TRIES: usize = 300;

fn damaged_case(random: &mut Random, max_bytes: usize, draw: fn(&mut Random) -> Reason) -> Case {
    for _ in 0..TRIES {
        let reason = draw(random);
        let small = max_bytes <= 600 || random.chance(50);
        let mut plan = if small { valid::valid(random, max_bytes.min(600)) } else { valid::medium(random) };
        let turns = turns(&plan);
        let Some(Damaged { job, refusal }) = damage(reason, &mut plan, random) else { continue };
        if job.len() <= max_bytes {
            let lengths = buffers::any(random, turns);
            return Case { job, mode: mode(random), lengths, damage: Some((reason, refusal)) };
        }
    }
    let refusal = Refusal { number: 1, place: 0 };
    Case { job: Vec::new(), mode: mode(random), lengths: [0; 3], damage: Some((Reason::Empty, refusal)) }
}

fn blind_case(random: &mut Random, max_bytes: usize, spoil: impl FnOnce(&mut Vec<u8>, &mut Random)) -> Case {
    let mut plan = valid::valid(random, max_bytes);
    if random.draws_unused {
        plan.drop_unused();
    }
    let mut job = plan.bytes();
    spoil(&mut job, random);
    let lengths = buffers::any(random, turns(&plan));
    Case { job, mode: mode(random), lengths, damage: None }
}

fn soup_case(random: &mut Random, max_bytes: usize) -> Case {
    let most = random.pick(&[4, 12, 40]);
    let mut job = noise::soup(random, most);
    job.truncate(max_bytes);
    let turns = random.below(40);
    let lengths = buffers::any(random, turns);
    Case { job, mode: mode(random), lengths, damage: None }
}
