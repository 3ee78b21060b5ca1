//! The jobs with the most replies: they have 128 REPLY commands, and every call has one.

use std::collections::BTreeSet;

use flow_bench::lists;
use flow_bench::replies::{Form, Shape};
use flow_bench::runs::{Bench, Engine};
use flow_reference::outcome::kind;
use flow_reference::{decode, Entry, Mode, Program, Runner, Step};

const SHAPES: [Shape; 2] = [Shape::Spread, Shape::Single];

fn program(shape: Shape, replies: bool, turns: bool) -> Program {
    decode(&Form { shape, replies, turns }.job()).expect("a valid job")
}

/// The entries of the monitored run.
fn entries(program: &Program) -> Vec<Entry> {
    let mut runner = Runner::new(program, Mode::Monitored);
    let mut list = Vec::new();
    while let Step::Completed(entry) = runner.step() {
        list.push(entry);
    }
    list
}

/// How many of the job's replies are asked, and how many of its functions have some.
fn used(shape: Shape) -> [usize; 2] {
    let program = program(shape, true, true);
    assert_eq!((program.replies.len(), program.turns.len()), (128, 4_096));
    let calls = entries(&program).into_iter().filter(|entry| entry.kind == kind::CALL);
    let asked: BTreeSet<(u8, u32)> = calls.map(|call| (call.number, call.value)).collect();
    let recorded: BTreeSet<(u8, u32)> = program.replies.iter().map(|reply| reply.call()).collect();
    assert!(asked.is_subset(&recorded), "every call has a reply");
    let functions: BTreeSet<u8> = program.replies.iter().map(|reply| reply.function).collect();
    [asked.len(), functions.len()]
}

#[test]
fn replies_are_asked() {
    assert_eq!(SHAPES.map(used), [[128, 32], [31, 1]]);
}

#[test]
fn calls() {
    let calls = SHAPES.map(|shape| lists::calls(&Form { shape, replies: true, turns: true }.job()));
    assert_eq!(calls, [1_977, 2_015]);
}

/// Without REPLY commands the same turns are made and leave the same entries; without turns none is.
#[test]
fn forms_differ_in_what_is_left_out_alone() {
    for shape in SHAPES {
        let [with, without] = [true, false].map(|replies| program(shape, replies, true));
        assert_eq!((without.replies.len(), &with.turns), (0, &without.turns));
        assert_eq!(entries(&with), entries(&without));
        assert_eq!(entries(&with).len(), 4_096);
        for replies in [true, false] {
            let [long, none] = [true, false].map(|turns| Form { shape, replies, turns }.job());
            assert!(long.starts_with(&none) && long.len() == none.len() + 2 * 4_096);
        }
    }
}

/// Both runs answer stop 0 after 4,096 turns, and hand over the same.
#[test]
fn monitored_and_bare_runs_are_the_same() {
    for shape in SHAPES {
        let job = Form { shape, replies: true, turns: true }.job();
        let [mut monitored, mut bare] = [Mode::Monitored, Mode::Unmonitored]
            .map(|mode| Bench::of(Engine::Reference, mode, job.clone(), 0xA5));
        assert_eq!([monitored.run(), bare.run()], [[0, 0, 0, 4_096, 0, 0, 0, 0, 0]; 2]);
        assert!(monitored.buffers == bare.buffers);
    }
}
