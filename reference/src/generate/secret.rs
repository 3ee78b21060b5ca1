//! Variables that nobody may read (02, S-13): a job that has one, and another start for it.

use super::accesses::with_accesses;
use super::random::Random;
use super::walk::{walk, without, Placed};
use crate::command::{Command, HandlerCommand};

/// A variable by its number, and the start that it gets in a second job.
#[derive(Clone, Copy, Debug, PartialEq, Eq)]
pub struct OtherStart {
    pub variable: usize,
    pub start: u32,
}

impl OtherStart {
    /// The second job: the first with the other start, all other bytes the same. None if it has no such variable.
    pub fn second(&self, job: &[u8]) -> Option<Vec<u8>> {
        let place = variables(job).get(self.variable)?.place;
        let mut second = job.to_vec();
        second[place..place + 4].copy_from_slice(&self.start.to_le_bytes());
        Some(second)
    }
}

/// A variable as its VAR has it. The place is that of the start's four bytes.
#[derive(Clone, Copy, Debug)]
pub struct Variable {
    pub is_shared: bool,
    pub start: u32,
    pub place: usize,
}

/// The variables of a job in order, whether it is accepted or not.
pub fn variables(job: &[u8]) -> Vec<Variable> {
    let variable = |Placed { command, end, .. }| match command {
        Command::Var { scope, start, .. } => {
            Some(Variable { is_shared: matches!(scope, 1 | 2), start, place: end - 4 })
        }
        _ => None,
    };
    walk(job).filter_map(variable).collect()
}

/// Whether a variable is shared and the job has no READ of it.
pub fn is_secret(job: &[u8], variable: usize) -> bool {
    let is_shared = variables(job).get(variable).is_some_and(|variable| variable.is_shared);
    is_shared && !walk(job).any(|placed| is_read(&placed.command, variable))
}

/// Whether a command is READ of a variable.
fn is_read(command: &Command, number: usize) -> bool {
    matches!(*command, Command::Read { variable, .. } if usize::from(variable) == number)
}

/// A secret of the job, which loses its READ commands of that variable; about half of the accepted jobs get more reads
/// and writes of it. None if the job has no shared variable.
pub fn draw(job: &[u8], random: &mut Random) -> Option<(Vec<u8>, OtherStart)> {
    let variables = variables(job);
    let shared = (0..variables.len()).filter(|&variable| variables[variable].is_shared).collect();
    let variable = choose(job, shared, random)?;
    let start = another(variables[variable].start, random);
    let mut job = without(job, |command| is_read(command, variable));
    if random.chance(50) {
        job = with_accesses(&job, variable as u8, random);
    }
    Some((job, OtherStart { variable, start }))
}

/// One of the variables: mostly one that a handler reads or that some node may write, if there are such.
fn choose(job: &[u8], shared: Vec<usize>, random: &mut Random) -> Option<usize> {
    let named: Vec<usize> = match random.below(10) {
        0..=3 => walk(job).filter_map(|placed| read_by(&placed.command)).collect(),
        4..=7 => walk(job).filter_map(|placed| permitted_by(&placed.command)).collect(),
        _ => Vec::new(),
    };
    let wanted: Vec<usize> = shared.iter().copied().filter(|variable| named.contains(variable)).collect();
    let list = if wanted.is_empty() { shared } else { wanted };
    (!list.is_empty()).then(|| random.pick(&list))
}

/// The variable of GET and PLUS.
fn read_by(command: &Command) -> Option<usize> {
    match *command {
        Command::Handler(HandlerCommand::Get(variable) | HandlerCommand::Plus(variable)) => {
            Some(variable.into())
        }
        _ => None,
    }
}

/// The variable of WRITE.
fn permitted_by(command: &Command) -> Option<usize> {
    match *command {
        Command::Write { variable, .. } => Some(variable.into()),
        _ => None,
    }
}

/// Another start: by one bit, the smallest, the largest or any.
fn another(start: u32, random: &mut Random) -> u32 {
    loop {
        let other = match random.below(8) {
            0 | 1 => start ^ 1 << random.below(32),
            2 => 0,
            3 => u32::MAX,
            4 => start.wrapping_add(1),
            _ => random.value(),
        };
        if other != start {
            return other;
        }
    }
}
