//! Permissions for the entries of an unmonitored run, with gaps.

use std::collections::{BTreeMap, BTreeSet};

use super::plan::Plan;
use super::random::Random;
use super::uses::used;
use crate::command::{self, Command};
use crate::outcome::{kind, Entry};
use crate::table::{self, ANY, ARG, GET, MAX_ARGS, PUT, READ, SPAN, WRITE};

/// How many of the needed permissions are given.
enum Style {
    All,
    AllButOne,
    Percent(usize),
}

/// Node, function and argument of a call.
type Call = [u32; 3];

/// Permissions under which a whole run is permitted.
struct Needed {
    permissions: BTreeSet<Vec<u8>>,
    /// Calls with the ARG or SPAN that permits them.
    calls: BTreeMap<Call, Vec<u8>>,
}

pub fn permit(plan: &mut Plan, entries: &[Entry], random: &mut Random) {
    let style = match random.below(20) {
        0..=7 => Style::All,
        8..=14 => Style::AllButOne,
        15..=17 => Style::Percent(90),
        18 => Style::Percent(50),
        _ => Style::Percent(0),
    };
    let Needed { permissions, calls } = needed(entries, random);
    let mut permissions: Vec<Vec<u8>> = permissions.into_iter().collect();
    random.shuffle(&mut permissions);
    match style {
        Style::All => {}
        Style::AllButOne if random.draws_spans && !calls.is_empty() && random.chance(60) => {
            just_miss(&mut permissions, &calls, random);
        }
        Style::AllButOne => {
            permissions.pop();
        }
        Style::Percent(percent) => permissions.retain(|_| random.chance(percent)),
    }
    permissions.extend(extras(plan, entries, random));
    if random.draws_unused {
        permissions.extend(unreached(plan, entries, random));
    }
    add_distinct(plan, permissions, random);
}

/// Takes out the permission of a call and puts in a SPAN that begins above its argument or ends below it.
fn just_miss(permissions: &mut Vec<Vec<u8>>, calls: &BTreeMap<Call, Vec<u8>>, random: &mut Random) {
    let list: Vec<_> = calls.iter().collect();
    let (&[node, function, argument], left_out) = random.pick(&list);
    permissions.retain(|permission| permission != left_out);
    let more = random.below(4) as u32;
    let above = argument.checked_add(1).map(|low| [low, low.saturating_add(more)]);
    let below = argument.checked_sub(1).map(|high| [high.saturating_sub(more), high]);
    let ends = if random.chance(50) { above.or(below) } else { below.or(above) };
    permissions.extend(ends.map(|[low, high]| table::write(SPAN, &[node, function, low, high])));
}

fn needed(entries: &[Entry], random: &mut Random) -> Needed {
    let mut permissions = BTreeSet::new();
    let mut calls = BTreeMap::new();
    let percent_any = random.pick(&[0, 30, 70, 100]);
    let any_for: [bool; 32] = std::array::from_fn(|_| random.chance(percent_any));
    let mut args = 0;
    for entry in entries {
        let (node, number) = (entry.node.into(), entry.number.into());
        let permission = match entry.kind {
            kind::READ => table::write(READ, &[node, number]),
            kind::WRITE => table::write(WRITE, &[node, number]),
            kind::CALL if any_for[(node + number) as usize % 32] || args >= 200 => {
                table::write(ANY, &[node, number])
            }
            kind::CALL => {
                let call = [node, number, entry.value];
                calls.entry(call).or_insert_with(|| of_call(call, random)).clone()
            }
            _ => continue,
        };
        let is_counted = is_counted(&permission);
        if permissions.insert(permission) && is_counted {
            args += 1;
        }
    }
    Needed { permissions, calls }
}

/// Whether it is ARG or SPAN.
fn is_counted(permission: &[u8]) -> bool {
    matches!(permission[0], ARG | SPAN)
}

/// ARG of a call, or a SPAN around its argument.
fn of_call([node, function, argument]: Call, random: &mut Random) -> Vec<u8> {
    if !random.draws_spans || random.chance(40) {
        return table::write(ARG, &[node, function, argument]);
    }
    let (low, high) = around(argument, random);
    table::write(SPAN, &[node, function, low, high])
}

/// The ends of a range around an argument, which often is an end itself.
fn around(argument: u32, random: &mut Random) -> (u32, u32) {
    let low = match random.below(8) {
        0..=2 => argument,
        3..=5 => argument.saturating_sub(1 + random.below(4) as u32),
        6 => argument.min(random.value()),
        _ => 0,
    };
    let high = match random.below(8) {
        0..=2 => argument,
        3..=5 => argument.saturating_add(1 + random.below(4) as u32),
        6 => argument.max(random.value()),
        _ => u32::MAX,
    };
    (low, high)
}

/// Permissions that the run does not need: arguments close to used ones, other variables and calls.
fn extras(plan: &Plan, entries: &[Entry], random: &mut Random) -> Vec<Vec<u8>> {
    let mut list = Vec::new();
    let calls: Vec<&Entry> = entries.iter().filter(|entry| entry.kind == kind::CALL).collect();
    for _ in 0..random.below(5) {
        if plan.functions > 0 && plan.nodes() > 0 {
            list.push(as_span(decoy(plan, &calls, random), random));
        }
    }
    for _ in 0..random.below(4) {
        if plan.nodes() == 0 || plan.variables.is_empty() {
            break;
        }
        let node = random.below(plan.nodes()) as u8;
        let variable = random.below(plan.variables.len()) as u8;
        if plan.sees(node, variable) && plan.is_shared(variable) {
            list.push(table::write(random.pick(&[READ, WRITE]), &[node.into(), variable.into()]));
        }
    }
    list
}

/// Permissions for what a handler has a command for that the run does not reach: none, some or all of them.
fn unreached(plan: &Plan, entries: &[Entry], random: &mut Random) -> Vec<Vec<u8>> {
    let percent = random.pick(&[0, 40, 100]);
    let mut list = Vec::new();
    for node in 0..plan.nodes() as u8 {
        for [byte, number] in plan.handler(node).iter().filter_map(|command| used(command)) {
            let (kind, permission) = of_use(byte, random);
            let is_reached = |entry: &Entry| (entry.node, entry.kind, entry.number) == (node, kind, number);
            let may_be = kind == kind::CALL || plan.is_shared(number);
            if may_be && random.chance(percent) && !entries.iter().any(is_reached) {
                list.push(whole([permission, node, number], random));
            }
        }
    }
    list
}

/// The kind of a used command's entry, and a permission for it.
fn of_use(byte: u8, random: &mut Random) -> (u8, u8) {
    match byte {
        GET => (kind::READ, READ),
        PUT => (kind::WRITE, WRITE),
        _ => (kind::CALL, random.pick(&[ANY, ARG, SPAN])),
    }
}

/// A permission with any arguments, given by its byte, node and number.
pub fn whole([byte, node, number]: [u8; 3], random: &mut Random) -> Vec<u8> {
    let (one, other) = (random.value(), random.value());
    let operands = [node.into(), number.into(), one.min(other), one.max(other)];
    let count = table::row(byte).expect("a byte of the table").operands.len();
    table::write(byte, &operands[..count])
}

/// ARG beside the needed ones: another value, function or node; the same argument beside ANY.
fn decoy(plan: &Plan, calls: &[&Entry], random: &mut Random) -> Vec<u8> {
    let any_node = random.below(plan.nodes()) as u32;
    let any_function = random.below(plan.functions) as u32;
    if calls.is_empty() {
        return table::write(ARG, &[any_node, any_function, random.value()]);
    }
    let call = random.pick(calls);
    let (node, function) = (u32::from(call.node), u32::from(call.number));
    match random.below(5) {
        0 => table::write(ARG, &[node, function, call.value.wrapping_add(1)]),
        1 => table::write(ARG, &[node, function, call.value ^ 1 << random.below(32)]),
        2 => table::write(ARG, &[node, any_function, call.value]),
        3 => table::write(ARG, &[any_node, function, call.value]),
        _ => table::write(ARG, &[node, function, random.value()]),
    }
}

/// Of an ARG, if SPAN is drawn, as often as not a SPAN from its argument on.
fn as_span(arg: Vec<u8>, random: &mut Random) -> Vec<u8> {
    if !random.draws_spans || random.chance(50) {
        return arg;
    }
    let more = random.pick(&[0, 0, 1, 5, u32::MAX]);
    let Ok((Command::Arg { node, function, value }, ..)) = command::read(&arg, 0) else { return arg };
    table::write(SPAN, &[node.into(), function.into(), value, value.saturating_add(more)])
}

fn add_distinct(plan: &mut Plan, mut permissions: Vec<Vec<u8>>, random: &mut Random) {
    permissions.sort_unstable();
    permissions.dedup();
    random.shuffle(&mut permissions);
    let mut args = 0;
    permissions.retain(|permission| {
        args += usize::from(is_counted(permission));
        !is_counted(permission) || args <= MAX_ARGS
    });
    plan.groups[usize::from(table::group(ANY))].append(&mut permissions);
}
