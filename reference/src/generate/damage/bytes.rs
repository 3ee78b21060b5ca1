//! Refusals 1 to 3: length, unknown bytes, cut operands.

use super::{operands, Damaged};
use crate::generate::count::{draw_byte, fill, pad, Count};
use crate::generate::plan::Plan;
use crate::generate::random::Random;
use crate::table::{self, MAX_JOB_BYTES};

/// Valid but for its length.
pub fn too_long(plan: &mut Plan, random: &mut Random) -> Option<Damaged> {
    let length = MAX_JOB_BYTES + random.pick(&[1, 1, 2, 3, 100]);
    pad(plan, random, length)?;
    Some(Damaged::new(plan, 1, 0))
}

pub fn too_long_and_broken(random: &mut Random) -> Damaged {
    let length = MAX_JOB_BYTES + random.between(1, 300);
    Damaged::from_bytes(vec![random.below(256) as u8; length], 1, 0)
}

fn unknown(random: &mut Random) -> u8 {
    let known: Vec<u8> = random.commands().iter().map(|row| row.byte).collect();
    let unknown: Vec<u8> = (0..=255).filter(|byte| !known.contains(byte)).collect();
    random.pick(&unknown)
}

/// The offsets of all commands, and the job's length.
fn boundaries(plan: &Plan) -> Vec<usize> {
    let mut offsets = vec![0];
    for command in plan.groups.iter().flatten() {
        offsets.push(offsets[offsets.len() - 1] + command.len());
    }
    offsets
}

pub fn unknown_byte(plan: &Plan, random: &mut Random) -> Damaged {
    let place = random.pick(&boundaries(plan));
    let mut job = plan.bytes();
    job.insert(place, unknown(random));
    Damaged::from_bytes(job, 2, place)
}

pub fn unknown_last_byte(plan: &Plan, random: &mut Random) -> Damaged {
    let mut job = plan.bytes();
    let place = job.len();
    job.push(unknown(random));
    Damaged::from_bytes(job, 2, place)
}

/// Ends the job inside a command.
fn cut(mut before: Vec<u8>, command: &[u8], random: &mut Random) -> Damaged {
    let place = before.len();
    before.extend_from_slice(&command[..random.between(1, command.len() - 1)]);
    Damaged::from_bytes(before, 3, place)
}

pub fn cut_operands(plan: &Plan, random: &mut Random) -> Option<Damaged> {
    let job = plan.bytes();
    let commands: Vec<(usize, usize)> =
        boundaries(plan).windows(2).map(|pair| (pair[0], pair[1])).filter(|(a, b)| b - a > 1).collect();
    if commands.is_empty() {
        return None;
    }
    let (place, end) = random.pick(&commands);
    Some(cut(job[..place].to_vec(), &job[place..end], random))
}

/// A cut command whose group is too low as well.
pub fn cut_in_lower_group(plan: &Plan, random: &mut Random) -> Option<Damaged> {
    let last = plan.groups.iter().rposition(|group| !group.is_empty())?;
    let lower = |byte| usize::from(table::group(byte)) < last;
    let commands = random.commands();
    let rows: Vec<u8> =
        commands.iter().filter(|row| row.width > 0 && lower(row.byte)).map(|row| row.byte).collect();
    if rows.is_empty() {
        return None;
    }
    let byte = random.pick(&rows);
    let command = table::write(byte, &operands(plan, random, byte));
    Some(cut(plan.bytes(), &command, random))
}

/// A cut command that passes a count as well.
pub fn cut_over_count(plan: &mut Plan, random: &mut Random, count: Count) -> Option<Damaged> {
    let spot = fill(plan, random, count)?;
    let before = plan.bytes()[..plan.offset(spot.group, spot.index)].to_vec();
    let byte = draw_byte(count, random);
    let command = table::write(byte, &operands(plan, random, byte));
    Some(cut(before, &command, random))
}
