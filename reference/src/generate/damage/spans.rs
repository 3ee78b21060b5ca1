//! Refusal 15: a SPAN whose low is above its high.

use super::{anywhere, beyond, insert, jumps, Damaged};
use crate::generate::plan::Plan;
use crate::generate::random::Random;
use crate::table::{self, group, JUMP, SPAN, TURN};

/// Inserts such a SPAN of a declared node and function, and gives its offset.
fn insert_span(plan: &mut Plan, random: &mut Random) -> Option<usize> {
    if plan.nodes() == 0 || plan.functions == 0 {
        return None;
    }
    let (node, function) = (random.below(plan.nodes()) as u32, random.below(plan.functions) as u32);
    let high = random.value().min(u32::MAX - 1);
    let any = random.value().max(high + 1);
    let low = random.pick(&[high + 1, high + 1, u32::MAX, any]);
    let index = anywhere(plan, random, SPAN)?;
    let command = table::write(SPAN, &[node, function, low, high]);
    Some(insert(plan, usize::from(group(SPAN)), index, command))
}

/// Such a SPAN, alone or with a bad jump or a TURN of an undeclared node behind it: 15 goes first.
pub fn low_above_high(plan: &mut Plan, random: &mut Random, alone: bool) -> Option<Damaged> {
    let place = insert_span(plan, random)?;
    if !alone && random.chance(50) {
        jumps::insert_jump(plan, random, JUMP, 90)?;
    } else if !alone {
        let node = beyond(random, plan.nodes());
        plan.push(TURN, &[node]);
    }
    Some(Damaged::new(plan, 15, place))
}
