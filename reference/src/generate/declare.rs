//! Variables of all scopes and functions, interleaved.

use super::plan::Plan;
use super::random::Random;
use super::size::Size;

pub fn declare(plan: &mut Plan, random: &mut Random, size: &Size) {
    let variables = at_most(random, size.variables);
    let functions = at_most(random, size.functions);
    let mut is_function = vec![false; variables];
    is_function.resize(variables + functions, true);
    random.shuffle(&mut is_function);
    for is_function in is_function {
        let value = random.value();
        if is_function {
            plan.add_function(value);
        } else {
            let (scope, owner) = place(plan, random);
            plan.add_variable(scope, owner, value);
        }
    }
}

/// Mostly at least 1, if `most` allows it.
fn at_most(random: &mut Random, most: usize) -> usize {
    let least = usize::from(random.chance(75)).min(most);
    random.between(least, most)
}

/// Scope and owner of a variable.
fn place(plan: &Plan, random: &mut Random) -> (u8, u8) {
    match random.below(3) {
        0 if plan.nodes() > 0 => (0, random.below(plan.nodes()) as u8),
        1 => (1, random.below(plan.flows) as u8),
        _ => (2, 0),
    }
}
