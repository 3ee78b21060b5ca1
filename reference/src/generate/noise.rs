//! Jobs damaged blindly: cut, changed bytes, random commands.

use super::random::Random;
use crate::table::{self, Operand};

/// Ends the job anywhere.
pub fn cut(job: &mut Vec<u8>, random: &mut Random) {
    let length = random.below(job.len() + 1);
    job.truncate(length);
}

/// Changes one to three bytes.
pub fn flip(job: &mut [u8], random: &mut Random) {
    for _ in 0..random.between(1, 3) {
        let at = random.below(job.len());
        job[at] = match random.below(4) {
            0 => job[at] ^ 1 << random.below(8),
            1 => job[at].wrapping_add(1),
            2 => job[at].wrapping_sub(1),
            _ => random.below(256) as u8,
        };
    }
}

/// Random commands with small operands, mostly in the order of their groups.
pub fn soup(random: &mut Random, most: usize) -> Vec<u8> {
    let mut commands: Vec<Vec<u8>> = (0..random.between(1, most.max(1))).map(|_| command(random)).collect();
    if random.chance(85) {
        commands.sort_by_key(|command| table::group(command[0]));
    }
    let mut job = vec![table::FLOW; random.below(3)];
    job.extend(commands.into_iter().flatten());
    job
}

fn command(random: &mut Random) -> Vec<u8> {
    let commands = random.commands();
    let row = random.pick(&commands);
    let mut operands = Vec::new();
    for operand in row.operands {
        operands.push(match operand {
            Operand::Number => random.value(),
            Operand::Scope => random.below(3) as u32,
            _ => random.pick(&[0, 0, 0, 0, 1, 1, 2, 3]),
        });
    }
    table::write(row.byte, &operands)
}
