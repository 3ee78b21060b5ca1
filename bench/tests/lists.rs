//! The jobs with the longest lists: they have 256 ARG and SPAN commands, and all their calls are permitted.

use std::collections::BTreeSet;

use flow_bench::lists;
use flow_bench::runs::{Bench, Engine};
use flow_reference::outcome::kind;
use flow_reference::program::arg_key;
use flow_reference::{decode, Entry, Mode, Program, Runner, Step};

/// The entries of the monitored run, which completes all turns.
fn entries(program: &Program) -> Vec<Entry> {
    let mut runner = Runner::new(program, Mode::Monitored);
    let mut list = Vec::new();
    while let Step::Completed(entry) = runner.step() {
        list.push(entry);
    }
    assert_eq!(list.len(), program.turns.len());
    list
}

/// How many of the job's ARG and SPAN commands permit some call that it makes, of 128 each; and its calls.
fn used(job: &[u8]) -> ([usize; 2], usize) {
    let program = decode(job).expect("a valid job");
    assert_eq!((program.args.len(), program.spans.len(), program.turns.len()), (128, 128, 4_096));
    let calls: Vec<Entry> = entries(&program).into_iter().filter(|entry| entry.kind == kind::CALL).collect();
    let keys: BTreeSet<u64> = calls.iter().map(|call| arg_key(call.node, call.number, call.value)).collect();
    let args = program.args.iter().filter(|arg| keys.contains(arg)).count();
    let is_used = |low: u64, high: u64| keys.range(low..=high).next().is_some();
    let ends = program
        .spans
        .iter()
        .map(|span| [span.low, span.high].map(|end| arg_key(span.node, span.function, end)));
    ([args, ends.filter(|&[low, high]| is_used(low, high)).count()], calls.len())
}

#[test]
fn spread_lists_are_used_in_full() {
    assert_eq!(used(&lists::spread()), ([128, 128], 1_969));
}

#[test]
fn a_single_list_is_used_from_end_to_end() {
    assert_eq!(used(&lists::single()), ([16, 15], 2_015));
}

#[test]
fn calls() {
    assert_eq!([lists::spread(), lists::single()].map(|job| lists::calls(&job)), [1_969, 2_015]);
}

/// Both runs answer stop 0 after 4,096 turns, and hand over the same.
#[test]
fn monitored_and_bare_runs_are_the_same() {
    for job in [lists::spread(), lists::single()] {
        let [mut monitored, mut bare] = [Mode::Monitored, Mode::Unmonitored]
            .map(|mode| Bench::of(Engine::Reference, mode, job.clone(), 0xA5));
        let answers = [monitored.run(), bare.run()];
        assert_eq!(answers, [[0, 0, 0, 4_096, 0, 0, 0, 0, 0]; 2]);
        assert!(monitored.buffers == bare.buffers);
    }
}
