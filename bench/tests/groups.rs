//! All jobs are there, and no run of one, and no tally, takes more stack than is promised.

use flow_bench::groups::{self, Group};
use flow_bench::runs::Engine;
use flow_bench::stack::{most, run, tally};
use flow_reference::decode;

fn all() -> [Group; 3] {
    groups::all().expect("the examples can be read")
}

#[test]
fn groups_and_jobs() {
    let counts = all().map(|group| (group.name, group.tasks.len()));
    assert_eq!(counts, [("examples", 54), ("tables", 32), ("largest job", 2)]);
    for task in all().iter().flat_map(|group| &group.tasks) {
        let program = decode(&task.job).expect("a valid job");
        assert!(task.budget.is_none() || program.turns.is_empty());
    }
}

/// The tables and a state lie on the stack, so there is some to find.
#[test]
fn stack() {
    for group in all() {
        let bytes = most(Engine::Proved, &group, run);
        assert!((10_880 + 3_232..20_000).contains(&bytes), "{}: {bytes}", group.name);
        assert!(most(Engine::Proved, &group, tally) < 20_000);
    }
}
