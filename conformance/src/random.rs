//! Runs by the library and by the second implementation: fresh ones, or one again.

use flow_reference::corpus::Run;
use flow_reference::generate::Kind;

use crate::both::Both;
use crate::compare::compare;
use crate::totals::Totals;
use crate::{draw, words};

/// `count` valid jobs and a tenth as many damaged ones, in both modes, with their written turns and dispatched.
pub fn fresh(count: u64, seed: u64) -> Both<Totals> {
    let mut both = Both::default();
    for (kind, count) in [(Kind::Valid, count), (Kind::Damaged, count / 10)] {
        for index in 0..count {
            draw::runs(seed, index, kind).iter().for_each(|run| check(run, &mut both));
        }
    }
    both
}

/// One run alone.
pub fn one(run: &Run) -> Both<Totals> {
    let mut both = Both::default();
    check(run, &mut both);
    both
}

/// Compares one run.
fn check(run: &Run, both: &mut Both<Totals>) {
    let compared = compare(run);
    both.of(run.budget).note(&compared);
    if !compared.lines.is_empty() {
        both.show(run.budget, &words::of_run(run), &compared.lines);
    }
}
