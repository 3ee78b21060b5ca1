//! The generator's jobs of 01's commands alone, from a fixed seed: every reason of a refusal, valid jobs and blind damage.

use super::Job;
use crate::generate::count::Count;
use crate::generate::damage::damage;
use crate::generate::{draw_case, valid, Kind, Random, Reason};

const SEED: u64 = 0x0C09_0905;

pub fn jobs() -> Vec<Job> {
    [reasons(), cases(Kind::Valid, 250), cases(Kind::Damaged, 250)].concat()
}

/// Jobs that are damaged by a SPAN: so many for each reason.
pub fn damaged_by_span(count: usize) -> Vec<Job> {
    let mut random = Random::new(SEED).without_replies();
    let reasons = Reason::all().into_iter().filter(|reason| reason.needs_span());
    reasons.flat_map(|reason| damaged(reason, count, 400, &mut random)).collect()
}

/// Jobs that are damaged by a REPLY: so many for each reason. Those with too many replies are long.
pub fn damaged_by_reply(count: usize) -> Vec<Job> {
    let mut random = Random::new(SEED + 1).without_unused();
    let longest = |reason: Reason| if matches!(reason.number(), 3 | 5) { 2_000 } else { 400 };
    let reasons = Reason::all().into_iter().filter(|reason| reason.needs_reply());
    reasons.flat_map(|reason| damaged(reason, count, longest(reason), &mut random)).collect()
}

/// Jobs that are damaged by unused permissions: so many for each reason.
pub fn damaged_by_unused(count: usize) -> Vec<Job> {
    let mut random = Random::new(SEED + 2).without_senders();
    let reasons = Reason::all().into_iter().filter(|reason| reason.needs_unused());
    reasons.flat_map(|reason| damaged(reason, count, 400, &mut random)).collect()
}

/// How many jobs are wanted of a reason, and their largest length: fewer where they have to be long.
fn wanted(reason: Reason) -> (usize, usize) {
    use Reason::*;
    match reason {
        Empty | TooLong | TooLongAndBroken => (0, 0),
        CutOverCount(Count::Turns) | OverCount(Count::Turns) | OverCountUndeclared(Count::Turns) => {
            (1, 9_000)
        }
        CutOverCount(Count::Args) | OverCount(Count::Args) | OverCountUndeclared(Count::Args) => (2, 2_400),
        OverCountRepeated(_) => (2, 2_400),
        _ => (6, 700),
    }
}

/// Jobs damaged for each reason.
fn reasons() -> Vec<Job> {
    let mut random = Random::new(SEED).of_01();
    let mut jobs = Vec::new();
    for reason in Reason::drawn_with(&random) {
        let (count, longest) = wanted(reason);
        jobs.extend(damaged(reason, count, longest, &mut random));
    }
    jobs
}

/// So many jobs damaged for a reason, of at most so many bytes.
fn damaged(reason: Reason, count: usize, longest: usize, random: &mut Random) -> Vec<Job> {
    let mut jobs = Vec::new();
    while jobs.len() < count {
        let mut plan = valid::medium(random);
        let damaged = damage(reason, &mut plan, random).filter(|d| d.job.len() <= longest);
        jobs.extend(damaged.map(|d| d.job));
    }
    jobs
}

/// Cases of a kind with small jobs; what their buffers are does not matter here.
fn cases(kind: Kind, count: u64) -> Vec<Job> {
    let longest = [40, 120, 300, 600];
    let job = |index: u64| {
        let mut random = Random::for_case(SEED, index).of_01();
        draw_case(&mut random, kind, longest[index as usize % longest.len()]).job
    };
    (0..count).map(job).collect()
}
