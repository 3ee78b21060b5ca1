//! Refusal 19: permissions that their node's handler has no command for.

use super::{anywhere, insert, jumps, Damaged};
use crate::generate::permit::whole;
use crate::generate::plan::{Plan, HANDLERS, PERMISSIONS};
use crate::generate::random::Random;
use crate::generate::uses::{use_of, used};
use crate::table::{ANY, ARG, JUMP, MAX_ARGS, READ, SKIP, SPAN, WRITE};

/// The permissions by their command byte.
pub const SORTS: [u8; 5] = [ANY, ARG, READ, WRITE, SPAN];

/// Byte, node and number of all permissions of a sort that would be unused.
fn candidates(plan: &Plan, byte: u8) -> Vec<[u8; 3]> {
    let of_variable = matches!(byte, READ | WRITE);
    let numbers = 0..if of_variable { plan.variables.len() } else { plan.functions } as u8;
    let nodes = 0..plan.nodes() as u8;
    let all = nodes.flat_map(|node| numbers.clone().map(move |number| [byte, node, number]));
    let may_be = |&[_, node, number]: &[u8; 3]| plan.sees(node, number) && plan.is_shared(number);
    all.filter(|one| !of_variable || may_be(one)).filter(|one| !plan.is_used(one)).collect()
}

/// Whether there is a command close to the use that is missing: the other access of the variable by this node, or the
/// same call by another.
fn is_close(plan: &Plan, &[byte, node, number]: &[u8; 3]) -> bool {
    match byte {
        READ => plan.is_used(&[WRITE, node, number]),
        WRITE => plan.is_used(&[READ, node, number]),
        _ => (0..plan.nodes() as u8).any(|other| plan.is_used(&[ANY, other, number])),
    }
}

/// Inserts one of these permissions at any place, if it is not there and not past the largest count.
fn insert_one(plan: &mut Plan, random: &mut Random, list: &[[u8; 3]]) -> Option<()> {
    let chosen = *list.get(random.below(list.len().max(1)))?;
    let command = whole(chosen, random);
    let is_full = matches!(chosen[0], ARG | SPAN) && plan.arguments().len() == MAX_ARGS;
    if is_full || plan.groups[PERMISSIONS].contains(&command) {
        return None;
    }
    let index = anywhere(plan, random, ANY)?;
    insert(plan, PERMISSIONS, index, command);
    Some(())
}

/// The plan's job, refused at its first unused permission.
fn at_first(plan: &Plan) -> Option<Damaged> {
    let index = plan.groups[PERMISSIONS].iter().position(|permission| !plan.is_used(permission))?;
    Some(Damaged::new(plan, 19, plan.offset(PERMISSIONS, index)))
}

/// One unused permission of a sort; if that is asked for, with a close command.
pub fn one(plan: &mut Plan, random: &mut Random, byte: u8, close: bool) -> Option<Damaged> {
    plan.drop_unused();
    let mut list = candidates(plan, byte);
    list.retain(|one| !close || is_close(plan, one));
    insert_one(plan, random, &list)?;
    at_first(plan)
}

/// Two to five unused permissions of any sorts: the first is the place.
pub fn several(plan: &mut Plan, random: &mut Random) -> Option<Damaged> {
    plan.drop_unused();
    for _ in 0..random.between(2, 5) {
        let byte = random.pick(&SORTS);
        let list = candidates(plan, byte);
        insert_one(plan, random, &list)?;
    }
    at_first(plan)
}

/// A used permission whose handler commands become SKIP: the first permission that they were for is the place.
pub fn use_lost(plan: &mut Plan, random: &mut Random) -> Option<Damaged> {
    plan.drop_unused();
    let count = plan.groups[PERMISSIONS].len();
    let permission = plan.groups[PERMISSIONS].get(random.below(count.max(1)))?.clone();
    let body = plan.body(permission[1])?;
    for command in &mut plan.groups[HANDLERS][body] {
        if used(command) == Some(use_of(&permission)) {
            *command = vec![SKIP];
        }
    }
    at_first(plan)
}

/// An unused permission and a bad jump behind it: 9 goes first.
pub fn before_bad_jump(plan: &mut Plan, random: &mut Random) -> Option<Damaged> {
    let byte = random.pick(&SORTS);
    let list = candidates(plan, byte);
    insert_one(plan, random, &list)?;
    jumps::bad_jump(plan, random, JUMP, 90)
}
