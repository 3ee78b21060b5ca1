//! Counts of runs with written turns and of dispatched ones, and the runs that differ.

use std::fmt;

/// Differing runs of each order that are shown.
const SHOWN: u64 = 10;

/// The counts of one order, and how many of its runs differ.
#[derive(Default)]
struct Order<T> {
    counts: T,
    differences: u64,
}

#[derive(Default)]
pub struct Both<T> {
    written: Order<T>,
    dispatched: Order<T>,
}

impl<T> Both<T> {
    /// The order of dispatched runs if there is a budget.
    fn order(&mut self, budget: Option<u64>) -> &mut Order<T> {
        match budget {
            Some(_) => &mut self.dispatched,
            None => &mut self.written,
        }
    }

    /// Its counts.
    pub fn of(&mut self, budget: Option<u64>) -> &mut T {
        &mut self.order(budget).counts
    }

    /// Shows one of the first runs that differ: the words that repeat it, and a line for each thing that differs.
    pub fn show(&mut self, budget: Option<u64>, words: &str, lines: &[String]) {
        let order = self.order(budget);
        order.differences += 1;
        if order.differences <= SHOWN {
            println!("{} {words}", std::env::args().next().unwrap_or_default());
            lines.iter().for_each(|line| println!("    {line}"));
        }
    }

    /// How many runs differ.
    pub fn differences(&self) -> u64 {
        self.written.differences + self.dispatched.differences
    }
}

impl<T: fmt::Display> fmt::Display for Both<T> {
    fn fmt(&self, f: &mut fmt::Formatter) -> fmt::Result {
        write!(f, "written turns: {}\ndispatched: {}", self.written.counts, self.dispatched.counts)
    }
}
