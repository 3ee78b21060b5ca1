//! Refusal 6: undeclared numbers, scopes, ports and owners.

use super::{anywhere, beyond, insert, operands, Damaged};
use crate::generate::plan::{Plan, HANDLERS};
use crate::generate::random::Random;
use crate::table::{self, *};

pub fn node_before_flow(plan: &mut Plan) -> Damaged {
    let place = insert(plan, 0, 0, vec![NODE]);
    Damaged::new(plan, 6, place)
}

pub fn handler_before_body(plan: &mut Plan, random: &mut Random, byte: u8) -> Damaged {
    let command = table::write(byte, &operands(plan, random, byte));
    let place = insert(plan, HANDLERS, 0, command);
    Damaged::new(plan, 6, place)
}

/// One operand names nothing declared, or a port above 3.
pub fn undeclared(plan: &mut Plan, random: &mut Random, byte: u8, operand: usize) -> Option<Damaged> {
    let index = anywhere(plan, random, byte)?;
    let kind = table::row(byte)?.operands[operand];
    let declared = match kind {
        Operand::Node | Operand::TargetNode => plan.nodes(),
        Operand::Function => plan.functions,
        Operand::Variable => plan.variables.len(),
        Operand::Port => PORTS,
        _ => return None,
    };
    let mut list = operands(plan, random, byte);
    list[operand] = beyond(random, declared);
    let place = insert(plan, usize::from(group(byte)), index, table::write(byte, &list));
    Some(Damaged::new(plan, 6, place))
}

/// What is wrong with a VAR.
pub enum Fault {
    OwnerNode,
    OwnerFlow,
    Scope,
    GlobalOwner,
}

pub fn variable(plan: &mut Plan, random: &mut Random, fault: Fault) -> Damaged {
    let (scope, owner) = match fault {
        Fault::OwnerNode => (0, beyond(random, plan.nodes())),
        Fault::OwnerFlow => (1, beyond(random, plan.flows)),
        Fault::Scope => (beyond(random, 3), random.pick(&[0, 0, 1, 200])),
        Fault::GlobalOwner => (2, beyond(random, 1)),
    };
    let group = usize::from(group(VAR));
    let index = random.between(0, plan.groups[group].len());
    let place = insert(plan, group, index, table::write(VAR, &[scope, owner, random.value()]));
    Damaged::new(plan, 6, place)
}
