//! Refusals 6 and 8 at a REPLY: before its FUN, and again with another answer.

use super::{insert, Damaged};
use crate::generate::plan::Plan;
use crate::generate::random::Random;
use crate::table::{self, group, FUN, REPLY};

/// The group of FUN and REPLY.
const GROUP: usize = group(REPLY) as usize;

/// A REPLY of a function that is declared behind it.
pub fn before_function(plan: &mut Plan, random: &mut Random) -> Option<Damaged> {
    let functions = plan.indices(FUN);
    let function = random.below(functions.len().max(1));
    let index = random.between(0, *functions.get(function)?);
    let command = table::write(REPLY, &[function as u32, random.value(), random.value()]);
    let place = insert(plan, GROUP, index, command);
    Some(Damaged::new(plan, 6, place))
}

/// Another REPLY with the function and argument of an earlier one, but not with its answer.
pub fn other_answer(plan: &mut Plan, random: &mut Random) -> Option<Damaged> {
    let indices = plan.indices(REPLY);
    if indices.is_empty() {
        return None;
    }
    let first = random.pick(&indices);
    let mut command = plan.groups[GROUP][first].clone();
    let answer = command.len() - 1 - random.below(4);
    command[answer] ^= 1 << random.below(8);
    let index = random.between(first + 1, plan.groups[GROUP].len());
    let place = insert(plan, GROUP, index, command);
    Some(Damaged::new(plan, 8, place))
}
