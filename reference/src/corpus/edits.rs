//! A valid job that has every command, and small edits of it.

use super::worlds::small;
use super::Job;
use crate::table::*;

/// What follows the declarations in the tour.
const TAIL: [(u8, &[u32]); 32] = [
    (WIRE, &[0, 0, 1]),
    (WIRE, &[1, 3, 0]),
    (WIRE, &[2, 1, 2]),
    (ANY, &[0, 0]),
    (ARG, &[0, 0, 7]),
    (READ, &[0, 1]),
    (WRITE, &[0, 3]),
    (ARG, &[2, 1, 1 << 31]),
    (READ, &[2, 2]),
    (BODY, &[1]),
    (TAKE, &[]),
    (GET, &[1]),
    (JUMPZ, &[4]),
    (CALL, &[1]),
    (BODY, &[0]),
    (SET, &[9]),
    (ADD, &[u32::MAX]),
    (PUT, &[0]),
    (PLUS, &[3]),
    (JUMPZ, &[7]),
    (SEND, &[3]),
    (JUMP, &[1]),
    (SKIP, &[]),
    (BODY, &[2]),
    (PUT, &[4]),
    (JUMP, &[2]),
    (START, &[1, 3]),
    (START, &[2, 0]),
    (TURN, &[1]),
    (TURN, &[0]),
    (TURN, &[2]),
    (TURN, &[1]),
];

/// Two flows, every command at least once, jumps forward, backward and to the end.
pub fn tour() -> Vec<Vec<u8>> {
    let mut plan = small();
    for (byte, operands) in TAIL {
        plan.push(byte, operands);
    }
    plan.groups.concat()
}

pub fn jobs() -> Vec<Job> {
    let commands = tour();
    let bytes = commands.concat();
    [vec![bytes.clone()], other_bytes(&bytes), cuts(&bytes), other_commands(&commands)].concat()
}

/// Each byte one more and one less.
pub fn other_bytes(job: &[u8]) -> Vec<Job> {
    let edited = |at: usize, byte: u8| [&job[..at], &[byte], &job[at + 1..]].concat();
    (0..job.len())
        .flat_map(|at| [edited(at, job[at].wrapping_add(1)), edited(at, job[at].wrapping_sub(1))])
        .collect()
}

/// The job ended at each byte.
fn cuts(job: &[u8]) -> Vec<Job> {
    (0..job.len()).map(|length| job[..length].to_vec()).collect()
}

/// Each command left out, doubled, and exchanged with the one before it.
fn other_commands(commands: &[Vec<u8>]) -> Vec<Job> {
    let mut jobs = Vec::new();
    for at in 0..commands.len() {
        let (head, tail) = (commands[..at].concat(), commands[at + 1..].concat());
        jobs.push([&head[..], &tail].concat());
        jobs.push([&head[..], &commands[at].repeat(2), &tail].concat());
        if at > 0 {
            let mut exchanged = commands.to_vec();
            exchanged.swap(at - 1, at);
            jobs.push(exchanged.concat());
        }
    }
    jobs
}
