//! Dispatched runs of generated jobs: without their TURN commands, with budgets small and large, right and wrong.

use super::random::Random;
use super::walk::without;
use crate::command::Command;
use crate::table::MAX_TURNS;

/// A job to dispatch, and its budget.
#[derive(Clone, Debug)]
pub struct Dispatched {
    pub job: Vec<u8>,
    pub budget: u64,
}

impl Dispatched {
    /// The turns that the budget allows: of one that is too large the most that there can be.
    pub fn turns(&self) -> usize {
        self.budget.min(MAX_TURNS as u64) as usize
    }
}

/// The job without its turns, and a budget that is accepted.
pub fn accepted(job: &[u8], random: &mut Random) -> Dispatched {
    let rest = without_turns(job);
    let turns = (job.len() - rest.len()) / 2;
    Dispatched { job: rest, budget: budget(random, turns) }
}

/// Mostly the same; some keep their turns, some get a budget that is refused.
pub fn any(job: &[u8], random: &mut Random) -> Dispatched {
    let mut drawn = accepted(job, random);
    if random.chance(5) {
        drawn.budget = refused_budget(random);
    }
    if random.chance(5) {
        drawn.job = job.to_vec();
    }
    drawn
}

/// The job without its TURN commands, as far as commands are whole; what follows them stays.
pub fn without_turns(job: &[u8]) -> Vec<u8> {
    without(job, |command| matches!(command, Command::Turn { .. }))
}

/// From 1 to 4,096: few turns, about so many, more of them, and now and then the most that there can be.
fn budget(random: &mut Random, turns: usize) -> u64 {
    let budget = match random.below(32) {
        0..=5 => random.between(1, 8),
        6..=13 => turns.saturating_sub(2) + random.below(5),
        14..=23 => random.between(1, 100),
        24..=29 => random.between(50, 400),
        30 => random.between(400, MAX_TURNS),
        _ => random.pick(&[MAX_TURNS - 1, MAX_TURNS]),
    };
    budget.clamp(1, MAX_TURNS) as u64
}

/// 0 or above 4,096: by one, by some, or with more bits than the lowest 16 or 32, which by themselves would do.
fn refused_budget(random: &mut Random) -> u64 {
    let low = random.between(1, MAX_TURNS) as u64;
    match random.below(8) {
        0 | 1 => 0,
        2 | 3 => MAX_TURNS as u64 + random.pick(&[1, 1, 2, 100, 61_439, 61_440]),
        4 => low | 1 << random.between(13, 31),
        5 | 6 => low | 1 << random.between(32, 63),
        _ => u64::MAX - random.below(3) as u64,
    }
}
