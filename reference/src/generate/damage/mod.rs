//! Damaged jobs whose refusal is known from the damage.

mod bytes;
mod jumps;
mod names;
mod order;
mod repeats;
mod replies;
mod sight;
mod spans;
pub mod unused;

use super::plan::{Plan, HANDLERS};
use super::random::Random;
use super::reason::Reason::{self, *};
use crate::outcome::Refusal;
use crate::table::{self, Operand, PORTS};

/// A damaged job and the refusal that it must get.
#[derive(Clone, Debug)]
pub struct Damaged {
    pub job: Vec<u8>,
    pub refusal: Refusal,
}

impl Damaged {
    fn new(plan: &Plan, number: u8, place: usize) -> Damaged {
        Damaged::from_bytes(plan.bytes(), number, place)
    }

    fn from_bytes(job: Vec<u8>, number: u8, place: usize) -> Damaged {
        Damaged { job, refusal: Refusal { number, place } }
    }
}

/// Damages a valid job; none if it does not offer what the reason needs.
pub fn damage(reason: Reason, plan: &mut Plan, random: &mut Random) -> Option<Damaged> {
    match reason {
        Empty => Some(Damaged::from_bytes(Vec::new(), 1, 0)),
        TooLong => bytes::too_long(plan, random),
        TooLongAndBroken => Some(bytes::too_long_and_broken(random)),
        UnknownByte => Some(bytes::unknown_byte(plan, random)),
        UnknownLastByte => Some(bytes::unknown_last_byte(plan, random)),
        CutOperands => bytes::cut_operands(plan, random),
        CutInLowerGroup => bytes::cut_in_lower_group(plan, random),
        CutOverCount(count) => bytes::cut_over_count(plan, random, count),
        LowerGroup => order::lower_group(plan, random),
        LowerGroupOverCount => order::lower_group_over_count(plan, random),
        LowerGroupUndeclared => order::lower_group_undeclared(plan, random),
        OverCount(count) => order::over_count(plan, random, count),
        OverCountUndeclared(count) => order::over_count_undeclared(plan, random, count),
        OverCountRepeated(count) => order::over_count_repeated(plan, random, count),
        _ => damage_content(reason, plan, random),
    }
}

/// The same for the reasons behind the largest counts: what operands name, what is repeated, jumps and ranges.
fn damage_content(reason: Reason, plan: &mut Plan, random: &mut Random) -> Option<Damaged> {
    match reason {
        NodeBeforeFlow => Some(names::node_before_flow(plan)),
        HandlerBeforeBody(byte) => Some(names::handler_before_body(plan, random, byte)),
        Undeclared(byte, operand) => names::undeclared(plan, random, byte, operand),
        UndeclaredOwnerNode => Some(names::variable(plan, random, names::Fault::OwnerNode)),
        UndeclaredOwnerFlow => Some(names::variable(plan, random, names::Fault::OwnerFlow)),
        ScopeAboveTwo => Some(names::variable(plan, random, names::Fault::Scope)),
        GlobalOwner => Some(names::variable(plan, random, names::Fault::GlobalOwner)),
        ReplyBeforeFunction => replies::before_function(plan, random),
        WireAcrossFlows => sight::wire_across_flows(plan, random),
        HandlerUnseenNodeVariable(byte) => sight::handler_unseen(plan, random, byte, 0),
        HandlerUnseenFlowVariable(byte) => sight::handler_unseen(plan, random, byte, 1),
        PermissionUnseen(byte) => sight::permission_unseen(plan, random, byte, 1),
        PermissionNotShared(byte) => sight::permission_not_shared(plan, random, byte),
        PermissionUnseenNotShared(byte) => sight::permission_unseen(plan, random, byte, 0),
        Repeated(byte) => repeats::repeated(plan, random, byte),
        ReplyWithOtherAnswer => replies::other_answer(plan, random),
        SecondBody => repeats::repeated(plan, random, table::BODY),
        SecondStartSameNode => repeats::second_start(plan, random, true),
        SecondStartOtherNode => repeats::second_start(plan, random, false),
        JumpOnePastEnd(byte) => jumps::bad_jump(plan, random, byte, 1),
        JumpFarPastEnd(byte) => jumps::bad_jump(plan, random, byte, 150),
        TwoBadJumps => jumps::two_bad_jumps(plan, random),
        BadJumpBeforeOtherRefusal => jumps::before_other_refusal(plan, random),
        LowAboveHigh { alone } => spans::low_above_high(plan, random, alone),
        Unused(byte) => unused::one(plan, random, byte, false),
        UnusedBesideClose(byte) => unused::one(plan, random, byte, true),
        SeveralUnused => unused::several(plan, random),
        UseLost => unused::use_lost(plan, random),
        UnusedBeforeBadJump => unused::before_bad_jump(plan, random),
        _ => unreachable!("{reason:?} comes before these"),
    }
}

/// Inserts a command and gives its offset.
fn insert(plan: &mut Plan, group: usize, index: usize, command: Vec<u8>) -> usize {
    let place = plan.offset(group, index);
    plan.groups[group].insert(index, command);
    place
}

/// An index where a command of this group may be inserted; handler commands come behind a BODY.
fn anywhere(plan: &Plan, random: &mut Random, byte: u8) -> Option<usize> {
    let count = plan.groups[usize::from(table::group(byte))].len();
    if !table::is_handler(byte) {
        return Some(random.between(0, count));
    }
    (count > 0).then(|| random.between(1, count))
}

/// Operands that name declared things (or 0, if there are none).
fn operands(plan: &Plan, random: &mut Random, byte: u8) -> Vec<u32> {
    let row = table::row(byte).expect("a byte of the table");
    let mut below = |count: usize| random.below(count.max(1)) as u32;
    let mut list = Vec::new();
    for operand in row.operands {
        list.push(match operand {
            Operand::Scope => 2,
            Operand::Owner | Operand::Position => 0,
            Operand::Node | Operand::TargetNode => below(plan.nodes()),
            Operand::Port => below(PORTS),
            Operand::Function => below(plan.functions),
            Operand::Variable => below(plan.variables.len()),
            Operand::Number => below(1 << 32),
        });
    }
    list
}

/// A number that is not declared: mostly the first such one.
fn beyond(random: &mut Random, count: usize) -> u32 {
    if random.chance(60) {
        count as u32
    } else {
        random.between(count, 255) as u32
    }
}

/// The node whose body holds the handler group's index.
fn body_of(plan: &Plan, index: usize) -> u8 {
    plan.body_at(index).expect("every handler command stands in a body")
}

/// One of the bodies: its index range in the handler group.
fn some_body(plan: &Plan, random: &mut Random) -> Option<std::ops::Range<usize>> {
    let bodies = plan.bodies();
    debug_assert!(plan.groups[HANDLERS].is_empty() || !bodies.is_empty());
    (!bodies.is_empty()).then(|| bodies[random.below(bodies.len())].clone())
}
