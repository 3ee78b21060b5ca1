//! Refusal 9: jumps past the end of their body.

use super::{beyond, insert, some_body, Damaged};
use crate::generate::plan::{Plan, HANDLERS};
use crate::generate::random::Random;
use crate::table::{self, JUMP, JUMPZ, TURN};

/// Inserts a jump whose target lies 1 past the end of its body (`past` 1) or 2 to `past`.
pub fn insert_jump(plan: &mut Plan, random: &mut Random, byte: u8, past: usize) -> Option<usize> {
    let body = some_body(plan, random)?;
    let count = body.len() + 1;
    let target = count + random.between(past.min(2), past);
    let index = random.between(body.start, body.end);
    Some(insert(plan, HANDLERS, index, table::write(byte, &[target as u32])))
}

pub fn bad_jump(plan: &mut Plan, random: &mut Random, byte: u8, past: usize) -> Option<Damaged> {
    let place = insert_jump(plan, random, byte, past)?;
    Some(Damaged::new(plan, 9, place))
}

/// Two bad jumps: the earlier one is the place.
pub fn two_bad_jumps(plan: &mut Plan, random: &mut Random) -> Option<Damaged> {
    let one = insert_jump(plan, random, JUMP, 90)?;
    let two = insert_jump(plan, random, JUMPZ, 90)?;
    // Each target lies at least 2 past the end, so the other jump in the same body does not mend it.
    Some(Damaged::new(plan, 9, one.min(two)))
}

/// A bad jump, and later a TURN of an undeclared node: 6 goes first.
pub fn before_other_refusal(plan: &mut Plan, random: &mut Random) -> Option<Damaged> {
    insert_jump(plan, random, JUMP, 90)?;
    let node = beyond(random, plan.nodes());
    let place = plan.length();
    plan.push(TURN, &[node]);
    Some(Damaged::new(plan, 6, place))
}
