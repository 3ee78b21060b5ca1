//! The largest job is as long as can be, and its turns are made.

use flow_bench::runs::{Bench, Engine};
use flow_bench::{large, largest};
use flow_reference::outcome::{kind, stop};
use flow_reference::{decode, Mode};

/// Stop, completed turns and the attempted entry's kind of its run by the second implementation.
fn end(mode: Mode) -> [u64; 3] {
    let [refusal, _, stop, turns, _, kind, ..] = Bench::of(Engine::Reference, mode, largest::job(), 0).run();
    assert_eq!(refusal, 0);
    [stop, turns, kind]
}

#[test]
fn it_is_the_large_job_with_turns() {
    let job = largest::job();
    assert_eq!(job.len(), 16_383, "another TURN takes two bytes");
    assert!(job.starts_with(&large::job()));
    assert_eq!(decode(&job).expect("a valid job").turns.len(), 3_468);
}

#[test]
fn all_its_turns_complete_without_the_lists() {
    assert_eq!(end(Mode::Unmonitored), [stop::TURNS_OUT.into(), 3_468, 0]);
}

#[test]
fn monitored_it_stops_at_a_call_with_another_argument() {
    assert_eq!(end(Mode::Monitored), [stop::FORBIDDEN.into(), 207, kind::CALL.into()]);
}
