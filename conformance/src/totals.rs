//! Counts over many runs.

use std::collections::BTreeSet;
use std::fmt;

use crate::compare::Compared;

/// Runs of one order, written or dispatched: by refusal (0: none) and by stop, the places of 19, the tallies compared, and
/// runs that differ.
#[derive(Default)]
pub struct Totals {
    runs: u64,
    turns: u64,
    examined: u64,
    refusals: [u64; 20],
    unused_places: BTreeSet<u64>,
    stops: [u64; 5],
    tallies: u64,
    differences: u64,
}

impl Totals {
    /// Counts a run.
    pub fn note(&mut self, run: &Compared) {
        let [refusal, place, stop, turns, .., examined] = run.answer;
        self.runs += 1;
        self.turns += turns;
        self.examined += examined;
        self.refusals[refusal as usize] += 1;
        match refusal {
            0 => self.stops[stop as usize] += 1,
            19 => drop(self.unused_places.insert(place)),
            _ => {}
        }
        self.tallies += run.tallies;
        self.differences += u64::from(!run.lines.is_empty());
    }
}

/// Number and count of each, from the number `first` on.
fn list(counts: &[u64], first: usize) -> String {
    let one = |(index, count): (usize, &u64)| format!(" {}:{count}", first + index);
    counts.iter().enumerate().map(one).collect()
}

impl fmt::Display for Totals {
    fn fmt(&self, f: &mut fmt::Formatter) -> fmt::Result {
        let Totals { runs, turns, examined, refusals, unused_places, stops, tallies, differences } = self;
        // There is no 16, 17 or 18.
        let refusals = [list(&refusals[1..=15], 1), list(&refusals[19..], 19)].concat();
        let (places, stops) = (unused_places.len(), list(stops, 0));
        write!(
            f,
            "{runs} runs, {turns} turns, {examined} examined, refusals{refusals} at {places} places, stops{stops}, \
             {tallies} tallies, {differences} differences"
        )
    }
}
