//! Pairs of runs that differ in the start of a variable nobody may read (02, S-13): fresh ones, or one again; and counts
//! of them.

use std::fmt;

use flow_reference::generate::Kind;
use flow_reference::outcome::{kind, stop};

use crate::alike::{compare_pair, ComparedPair};
use crate::both::Both;
use crate::pairs::{pairs, Pair};
use crate::words;

/// Pairs of one order, written or dispatched.
#[derive(Default)]
pub struct Counts {
    pairs: u64,
    refused: u64,
    /// Stopped at a read of the variable.
    at_read: u64,
    /// The variable was written in the run.
    overwritten: u64,
    /// The variable's bytes differ in the two snapshots.
    kept_apart: u64,
    /// Anything but these bytes differs when the pair is run unmonitored.
    unmonitored: u64,
    differences: u64,
}

impl Counts {
    /// Counts a pair, and the same pair unmonitored.
    fn note(&mut self, variable: usize, pair: &ComparedPair, unmonitored: &ComparedPair) {
        let [refusal, _, stop, _, _, kind, number, ..] = pair.answer;
        let read = [stop::FORBIDDEN.into(), kind::READ.into(), variable as u64];
        self.pairs += 1;
        self.refused += u64::from(refusal != 0);
        self.at_read += u64::from([stop, kind, number] == read);
        self.overwritten += u64::from(pair.is_overwritten);
        self.kept_apart += u64::from(pair.is_kept_apart);
        self.unmonitored += u64::from(!unmonitored.lines.is_empty());
        self.differences += u64::from(!pair.lines.is_empty());
    }
}

impl fmt::Display for Counts {
    fn fmt(&self, f: &mut fmt::Formatter) -> fmt::Result {
        let Counts { pairs, refused, at_read, overwritten, kept_apart, unmonitored, differences } = self;
        let accepted = pairs - refused;
        write!(
            f,
            "{pairs} pairs, {accepted} accepted, {refused} refused, {at_read} stopped at a read of the variable, \
             {overwritten} wrote it, {kept_apart} have other bytes of it in the snapshots; unmonitored {unmonitored} differ \
             elsewhere; {differences} differences"
        )
    }
}

/// Pairs of `count` valid jobs and of a tenth as many damaged ones, with their written turns and dispatched.
pub fn fresh(count: u64, seed: u64) -> Both<Counts> {
    let mut both = Both::default();
    for (kind, count) in [(Kind::Valid, count), (Kind::Damaged, count / 10)] {
        let drawn = (0..).filter_map(|index| pairs(seed, index, kind));
        drawn.take(count as usize).flatten().for_each(|pair| check(&pair, &mut both));
    }
    both
}

/// One pair alone.
pub fn one(pair: &Pair) -> Both<Counts> {
    let mut both = Both::default();
    check(pair, &mut both);
    both
}

/// Compares one pair.
fn check(pair: &Pair, both: &mut Both<Counts>) {
    let compared = compare_pair(pair);
    both.of(pair.first.budget).note(pair.other.variable, &compared, &compare_pair(&pair.unmonitored()));
    if !compared.lines.is_empty() {
        both.show(pair.first.budget, &words::of_pair(pair), &compared.lines);
    }
}
