//! Whether the two runs of a pair leave the same, but for the four bytes of the variable in the snapshot.

use crate::compare::{Answer, NAMES};
use crate::pairs::Pair;
use crate::trial::Trial;

/// The first run's answer, what became of the variable, and a line for each thing that the second run leaves otherwise.
pub struct ComparedPair {
    pub answer: Answer,
    /// Whether the first run wrote the variable.
    pub is_overwritten: bool,
    /// Whether its bytes in the two snapshots differ.
    pub is_kept_apart: bool,
    pub lines: Vec<String>,
}

/// Compares the runs of a pair.
pub fn compare_pair(pair: &Pair) -> ComparedPair {
    let [first, second] = [&pair.first, &pair.second].map(|run| Trial::of(run, pair.other.variable));
    let mut lines = differences(&second, &first);
    lines.extend([&first, &second].into_iter().filter_map(Trial::wrong_number));
    ComparedPair {
        answer: first.answer,
        is_overwritten: first.written.is_some(),
        is_kept_apart: first.number != second.number,
        lines,
    }
}

/// What a run left otherwise than expected, the hidden bytes aside.
fn differences(found: &Trial, expected: &Trial) -> Vec<String> {
    let mut lines = Vec::new();
    if found.answer != expected.answer {
        lines.push(format!("answer {:?}, expected {:?}", found.answer, expected.answer));
    }
    if found.place != expected.place {
        lines.push(format!("variable at {:?}, expected at {:?}", found.place, expected.place));
    }
    if found.tally != expected.tally {
        let counts = found.tally.1.iter().zip(&expected.tally.1).filter(|(one, other)| one != other).count();
        let [answer, expected] = [found, expected].map(|side| side.tally.0);
        lines.push(format!("tally: answer {answer:?}, expected {expected:?}; {counts} other counts"));
    }
    for (name, (found, expected)) in NAMES.iter().zip(found.bytes.iter().zip(&expected.bytes)) {
        lines.extend(found.difference(expected).map(|difference| format!("{name}: {difference}")));
    }
    lines
}
