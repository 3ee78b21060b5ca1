//! Largest counts: exactly reached, and one past.

use super::plan::{Plan, HANDLERS};
use super::random::Random;
use crate::table::{self, *};

#[derive(Clone, Copy, Debug, PartialEq, Eq, PartialOrd, Ord)]
pub enum Count {
    Flows,
    Nodes,
    Variables,
    Functions,
    BodyCommands,
    /// ARG and SPAN together.
    Args,
    Turns,
    Replies,
}

pub const COUNTS: [Count; 8] = [
    Count::Flows,
    Count::Nodes,
    Count::Variables,
    Count::Functions,
    Count::BodyCommands,
    Count::Args,
    Count::Turns,
    Count::Replies,
];

/// Those that are drawn with a generator of numbers.
pub fn drawn_with(random: &Random) -> Vec<Count> {
    COUNTS.into_iter().filter(|&count| random.draws_replies || count != Count::Replies).collect()
}

/// Where a command of the counted kind goes: group and index, one behind the last of them.
pub struct Spot {
    pub group: usize,
    pub index: usize,
}

/// Adds commands until the largest count is reached. The spot is where one more would pass it.
pub fn fill(plan: &mut Plan, random: &mut Random, count: Count) -> Option<Spot> {
    match count {
        Count::Flows => (plan.flows..MAX_FLOWS).for_each(|_| {
            plan.add_flow();
        }),
        Count::Nodes => (plan.nodes()..MAX_NODES).for_each(|_| {
            plan.add_node();
        }),
        Count::Variables => (plan.variables.len()..MAX_VARIABLES).for_each(|_| {
            plan.add_variable(2, 0, random.value());
        }),
        Count::Functions => (plan.functions..MAX_FUNCTIONS).for_each(|_| {
            plan.add_function(random.value());
        }),
        Count::BodyCommands => return fill_body(plan, random),
        Count::Args => fill_args(plan, random)?,
        Count::Turns => fill_turns(plan, random)?,
        Count::Replies => fill_replies(plan, random)?,
    }
    let group = usize::from(group(byte_of(count)));
    Some(Spot { group, index: plan.groups[group].len() })
}

/// A command byte of the counted kind: of arguments ARG or, if it is drawn, SPAN.
pub fn draw_byte(count: Count, random: &mut Random) -> u8 {
    match count {
        Count::Args if random.draws_spans => random.pick(&[ARG, SPAN]),
        _ => byte_of(count),
    }
}

/// The command byte of the counted kind, or one of its group.
fn byte_of(count: Count) -> u8 {
    match count {
        Count::Flows => FLOW,
        Count::Nodes => NODE,
        Count::Variables => VAR,
        Count::Functions => FUN,
        Count::BodyCommands => SET,
        Count::Args => ARG,
        Count::Turns => TURN,
        Count::Replies => REPLY,
    }
}

fn fill_body(plan: &mut Plan, random: &mut Random) -> Option<Spot> {
    let bodies = plan.bodies();
    if bodies.is_empty() {
        return None;
    }
    let body = bodies[random.below(bodies.len())].clone();
    for _ in body.len()..MAX_BODY_COMMANDS {
        let filler = match random.below(4) {
            0 => table::write(ADD, &[random.value()]),
            1 => table::write(JUMP, &[random.between(0, MAX_BODY_COMMANDS) as u32]),
            2 => table::write(TAKE, &[]),
            _ => table::write(SKIP, &[]),
        };
        plan.groups[HANDLERS].insert(body.end, filler);
    }
    Some(Spot { group: HANDLERS, index: body.start + MAX_BODY_COMMANDS })
}

fn fill_args(plan: &mut Plan, random: &mut Random) -> Option<()> {
    let calls = plan.calls();
    if plan.nodes() == 0 || plan.functions == 0 || random.draws_unused && calls.is_empty() {
        return None;
    }
    let mut value = random.value();
    for _ in plan.arguments().len()..MAX_ARGS {
        let permissions = &plan.groups[usize::from(group(ARG))];
        let [node, function] = match random.draws_unused {
            true => random.pick(&calls),
            false => [random.below(plan.nodes()), random.below(plan.functions)].map(|number| number as u32),
        };
        let width = (random.draws_spans && random.chance(50)).then(|| random.below(4) as u32);
        let permission = |value: u32| match width {
            Some(width) => table::write(SPAN, &[node, function, value, value.saturating_add(width)]),
            None => table::write(ARG, &[node, function, value]),
        };
        while permissions.contains(&permission(value)) {
            value = value.wrapping_add(1);
        }
        let permission = permission(value);
        value = value.wrapping_add(random.below(2) as u32);
        plan.groups[usize::from(group(ARG))].push(permission);
    }
    Some(())
}

/// Replies behind all functions: distinct arguments, many of them one above another.
fn fill_replies(plan: &mut Plan, random: &mut Random) -> Option<()> {
    if plan.functions == 0 {
        return None;
    }
    let mut calls = plan.replies();
    let mut argument = random.value();
    while calls.len() < MAX_REPLIES {
        let function = random.below(plan.functions) as u8;
        while calls.contains(&(function, argument)) {
            argument = argument.wrapping_add(1);
        }
        calls.push((function, argument));
        plan.push(REPLY, &[function.into(), argument, random.value()]);
        argument = argument.wrapping_add(random.below(2) as u32);
    }
    Some(())
}

fn fill_turns(plan: &mut Plan, random: &mut Random) -> Option<()> {
    if plan.nodes() == 0 {
        return None;
    }
    for _ in plan.indices(TURN).len()..MAX_TURNS {
        let node = random.below(plan.nodes()) as u8;
        plan.add_turn(node);
    }
    Some(())
}

/// Makes the job exactly `length` bytes long, with every other count kept: long handlers and turns.
pub fn pad(plan: &mut Plan, random: &mut Random, length: usize) -> Option<()> {
    fill(plan, random, Count::Nodes)?;
    fill(plan, random, Count::Turns)?;
    let with_body: Vec<u8> = plan.indices(BODY).iter().map(|&at| plan.groups[HANDLERS][at][1]).collect();
    for node in (0..MAX_NODES as u8).filter(|node| !with_body.contains(node)) {
        plan.push(BODY, &[node.into()]);
    }
    let mut room = length.checked_sub(plan.length())?;
    for body in plan.bodies().into_iter().rev() {
        for _ in body.len()..MAX_BODY_COMMANDS {
            let filler = match room {
                0 => return Some(()),
                1..=4 => table::write(SKIP, &[]),
                _ => table::write(SET, &[random.value()]),
            };
            room -= filler.len();
            plan.groups[HANDLERS].insert(body.end, filler);
        }
    }
    (room == 0).then_some(())
}
