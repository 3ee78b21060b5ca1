//! From a job's bytes to a program, or refusals 1 to 9, 15 and 19.

use crate::builder::Builder;
use crate::command;
use crate::outcome::Refusal;
use crate::program::Program;
use crate::table::MAX_JOB_BYTES;

/// Reads a job. Tests 2 to 8 and then 15 (02, S-5) run in this order at each command, front to back; 9 comes
/// after all, and 19 (02, S-7) after it.
pub fn decode(job: &[u8]) -> Result<Program, Refusal> {
    if job.is_empty() || job.len() > MAX_JOB_BYTES {
        return Err(Refusal { number: 1, place: 0 });
    }
    let mut builder = Builder::default();
    let mut place = 0;
    while place < job.len() {
        let refuse = |number| Refusal { number, place };
        let (command, group, next) = command::read(job, place).map_err(refuse)?;
        if let Some(number) = builder.refusal(&command, group) {
            return Err(refuse(number));
        }
        builder.group = group;
        builder.apply(command, place);
        place = next;
    }
    match (builder.first_bad_jump(), builder.lists.first_unused()) {
        (Some(place), _) => Err(Refusal { number: 9, place }),
        (None, Some(place)) => Err(Refusal { number: 19, place }),
        (None, None) => Ok(builder.finish()),
    }
}
