//! What the words name, and that both implementations make the same of every job.

use flow_bench::arguments;
use flow_bench::compare::compare;
use flow_bench::dispatched::DISPATCHED;
use flow_bench::replies::FORMS;
use flow_bench::runs::{Bench, Case, Engine};
use flow_reference::Mode;

/// Runs the job of a word and of a case: the answers and buffers are the same.
fn names(word: &str, case: Case) {
    let (mut named, runs) = arguments::read(&["reference", "bare", word, "3"]).expect(word);
    let mut meant = Bench::new(Engine::Reference, Mode::Unmonitored, case, 0);
    assert_eq!((named.run(), runs), (meant.run(), 3), "{word}");
    assert!(named.buffers == meant.buffers, "{word}");
}

#[test]
fn every_case_has_a_word() {
    names("turns", Case::Turns);
    names("stopped", Case::Stopped);
    names("none", Case::None);
    names("large", Case::Large);
    names("spread", Case::Spread);
    names("single", Case::Single);
    FORMS.into_iter().for_each(|(word, form)| names(word, Case::Replies(form)));
    DISPATCHED.into_iter().for_each(|(word, dispatched)| names(word, Case::Dispatched(dispatched)));
}

#[test]
fn other_words_name_nothing() {
    assert!(arguments::read(&["other", "bare", "large", "1"]).is_none());
    assert!(arguments::read(&["proved", "other", "large", "1"]).is_none());
    assert!(arguments::read(&["proved", "bare", "other", "1"]).is_none());
    assert!(arguments::read(&["proved", "bare", "large", "0"]).is_none());
    assert!(arguments::read(&["proved", "bare", "large"]).is_none());
}

#[test]
fn both_make_the_same() {
    assert_eq!(compare(), Ok(()));
}
