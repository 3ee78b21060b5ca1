//! The largest job: the large job with as many turns as its length allows. Unmonitored, all of them complete.

use flow_reference::table::{self, MAX_JOB_BYTES, TURN};
use flow_reference::{decode, Mode};

use crate::large;
use crate::script::schedule;

/// The job's bytes: 16,384 or one less.
pub fn job() -> Vec<u8> {
    let job = large::job();
    let turn = |node: u8| table::write(TURN, &[node.into()]);
    let count = (MAX_JOB_BYTES - job.len()) / turn(0).len();
    let entries = schedule(&decode(&job).expect("a valid job"), count, Mode::Unmonitored);
    job.into_iter().chain(entries.iter().flat_map(|entry| turn(entry.node))).collect()
}
