//! Refusals 4 and 5: groups and largest counts.

use super::{beyond, insert, operands, Damaged};
use crate::generate::count::{draw_byte, fill, Count};
use crate::generate::plan::Plan;
use crate::generate::random::Random;
use crate::table::{self, *};

/// Repeats a command of a lower group at a later place.
pub fn lower_group(plan: &mut Plan, random: &mut Random) -> Option<Damaged> {
    let filled: Vec<usize> = (0..plan.groups.len()).filter(|&g| !plan.groups[g].is_empty()).collect();
    if filled.len() < 2 {
        return None;
    }
    let later = random.between(1, filled.len() - 1);
    let earlier = &plan.groups[filled[random.below(later)]];
    let command = earlier[random.below(earlier.len())].clone();
    let index = random.between(1, plan.groups[filled[later]].len());
    let place = insert(plan, filled[later], index, command);
    Some(Damaged::new(plan, 4, place))
}

/// Appends a command to the whole job.
fn append(plan: &Plan, command: &[u8], number: u8) -> Damaged {
    let mut job = plan.bytes();
    let place = job.len();
    job.extend_from_slice(command);
    Damaged::from_bytes(job, number, place)
}

pub fn lower_group_over_count(plan: &mut Plan, random: &mut Random) -> Option<Damaged> {
    fill(plan, random, Count::Flows)?;
    let higher = plan.groups[1..].iter().any(|group| !group.is_empty());
    higher.then(|| append(plan, &[FLOW], 4))
}

pub fn lower_group_undeclared(plan: &mut Plan, random: &mut Random) -> Option<Damaged> {
    let higher = plan.groups[usize::from(group(ANY))..].iter().any(|group| !group.is_empty());
    let node = beyond(random, plan.nodes());
    higher.then(|| append(plan, &table::write(WIRE, &[node, 4, node]), 4))
}

/// One more command than the largest count allows; otherwise valid, but for a SPAN's ends.
pub fn over_count(plan: &mut Plan, random: &mut Random, count: Count) -> Option<Damaged> {
    let spot = fill(plan, random, count)?;
    let byte = match count {
        Count::BodyCommands => random.pick(&[SET, TAKE, JUMP, SKIP]),
        _ => draw_byte(count, random),
    };
    let command = table::write(byte, &operands(plan, random, byte));
    let place = insert(plan, spot.group, spot.index, command);
    Some(Damaged::new(plan, 5, place))
}

/// Passes a count and names something undeclared as well.
pub fn over_count_undeclared(plan: &mut Plan, random: &mut Random, count: Count) -> Option<Damaged> {
    let spot = fill(plan, random, count)?;
    let node = beyond(random, plan.nodes());
    let command = match count {
        Count::Variables => table::write(VAR, &[9, 0, random.value()]),
        Count::BodyCommands => {
            let byte = random.pick(&[GET, PUT, PLUS, SEND, CALL]);
            table::write(byte, &[255])
        }
        Count::Args if random.draws_spans && random.chance(50) => {
            table::write(SPAN, &[node, 0, random.value(), random.value()])
        }
        Count::Args => table::write(ARG, &[node, 0, random.value()]),
        Count::Turns => table::write(TURN, &[node]),
        Count::Replies => {
            table::write(REPLY, &[beyond(random, plan.functions), random.value(), random.value()])
        }
        _ => return None,
    };
    let place = insert(plan, spot.group, spot.index, command);
    Some(Damaged::new(plan, 5, place))
}

/// The 257th ARG or SPAN or the 129th REPLY is a repeated one.
pub fn over_count_repeated(plan: &mut Plan, random: &mut Random, count: Count) -> Option<Damaged> {
    let spot = fill(plan, random, count)?;
    let indices = if count == Count::Replies { plan.indices(REPLY) } else { plan.arguments() };
    let command = plan.groups[spot.group][random.pick(&indices)].clone();
    let place = insert(plan, spot.group, spot.index, command);
    Some(Damaged::new(plan, 5, place))
}
