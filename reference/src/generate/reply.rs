//! Replies: to arguments that calls ask, to close ones and to any others.

use std::collections::BTreeSet;

use super::plan::Plan;
use super::random::Random;
use super::schedule;
use crate::decode::decode;
use crate::outcome::kind;
use crate::table::{self, group, FUN, REPLY};

/// Function and argument of a call.
type Call = (u8, u32);

/// The most replies of a job: far below the largest count, which is reached on purpose only.
const MOST: usize = 40;

/// Gives most jobs with functions some replies, each at any place behind its FUN.
pub fn replies(plan: &mut Plan, random: &mut Random) {
    if !random.draws_replies || plan.functions == 0 || random.chance(20) {
        return;
    }
    let asked = asked(plan, random);
    let percent = random.pick(&[30, 70, 100]);
    let mut calls: BTreeSet<Call> = asked.iter().copied().filter(|_| random.chance(percent)).collect();
    for _ in 0..random.below(6) {
        calls.insert(other(plan, &asked, random));
    }
    let mut calls: Vec<Call> = calls.into_iter().collect();
    random.shuffle(&mut calls);
    for call in calls.into_iter().take(MOST) {
        insert(plan, call, random);
    }
}

/// What is asked in a run without replies, each call once.
fn asked(plan: &Plan, random: &mut Random) -> Vec<Call> {
    let program = decode(&plan.bytes()).expect("the generator's jobs are valid");
    let entries = schedule::schedule(&program, random, 60).entries;
    let calls = entries.iter().filter(|entry| entry.kind == kind::CALL);
    let calls: BTreeSet<Call> = calls.map(|entry| (entry.number, entry.value)).collect();
    calls.into_iter().collect()
}

/// A call close to one that is asked, with another argument or function; or any other.
fn other(plan: &Plan, asked: &[Call], random: &mut Random) -> Call {
    let any_function = random.below(plan.functions) as u8;
    if asked.is_empty() {
        return (any_function, random.value());
    }
    let (function, argument) = random.pick(asked);
    match random.below(6) {
        0 => (function, argument.wrapping_add(1)),
        1 => (function, argument ^ 1 << random.below(32)),
        2 | 3 => (any_function, argument),
        4 => (function, random.value()),
        _ => (any_function, random.value()),
    }
}

/// Puts in a REPLY to this call. Its answer is FUN's own, the argument itself or any other.
fn insert(plan: &mut Plan, (function, argument): Call, random: &mut Random) {
    let commands = &mut plan.groups[usize::from(group(REPLY))];
    let mut functions = commands.iter().enumerate().filter(|(_, command)| command[0] == FUN);
    let (at, fun) = functions.nth(usize::from(function)).expect("a declared function");
    let own = u32::from_le_bytes([fun[1], fun[2], fun[3], fun[4]]);
    let answer = match random.below(8) {
        0 => own,
        1 => argument,
        2 => own.wrapping_add(1),
        _ => random.value(),
    };
    let index = random.between(at + 1, commands.len());
    commands.insert(index, table::write(REPLY, &[function.into(), argument, answer]));
}
