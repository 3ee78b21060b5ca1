//! The stored corpus, made once a test program.

use std::sync::OnceLock;

use flow_reference::corpus::{families, Family, Run};
use flow_reference::dirt::dirty;
use flow_reference::Outcome;

/// A run with its outcome and its text.
pub struct Made {
    pub run: Run,
    pub outcome: Outcome,
    pub text: String,
}

/// What a run is answered.
pub fn outcome(run: &Run) -> Outcome {
    run.run_in(&mut dirty(run.seed, run.lengths))
}

fn made(run: Run) -> Made {
    let outcome = outcome(&run);
    let text = run.text();
    Made { run, outcome, text }
}

/// All families.
fn all_families() -> &'static [Family] {
    static FAMILIES: OnceLock<Vec<Family>> = OnceLock::new();
    FAMILIES.get_or_init(families)
}

/// All runs.
pub fn all() -> &'static [Made] {
    static ALL: OnceLock<Vec<Made>> = OnceLock::new();
    let runs = || all_families().iter().flat_map(|family| &family.runs).cloned();
    ALL.get_or_init(|| runs().map(made).collect())
}

/// The runs of a family.
pub fn runs_of(name: &str) -> Vec<Run> {
    all_families().iter().find(|family| family.name == name).expect("a family of this name").runs.clone()
}
