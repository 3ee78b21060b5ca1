//! All jobs, in groups.

use std::{fs, io};

use flow_reference::generate::dispatched::without_turns;
use flow_reference::{decode, Mode};

use crate::dispatched::MOST;
use crate::runs::{cases, MODES};
use crate::{largest, snapshots};

/// The folder of the repository's examples.
const EXAMPLES: &str = concat!(env!("CARGO_MANIFEST_DIR"), "/../examples");

/// A job and, if it is dispatched, its budget.
pub struct Task {
    pub job: Vec<u8>,
    pub budget: Option<u64>,
}

impl Task {
    fn written(job: Vec<u8>) -> Task {
        Task { job, budget: None }
    }

    /// A job with its written turns; and without them, dispatched with the largest budget.
    fn both(job: Vec<u8>) -> [Task; 2] {
        let dispatched = Task { job: without_turns(&job), budget: Some(MOST) };
        [Task::written(job), dispatched]
    }
}

/// Jobs with a name.
pub struct Group {
    pub name: &'static str,
    pub tasks: Vec<Task>,
}

impl Group {
    /// Each job, monitored and bare.
    pub fn runs(&self) -> impl Iterator<Item = (Mode, &Task)> {
        self.tasks.iter().flat_map(|task| MODES.map(|mode| (mode, task)))
    }
}

/// The accepted example jobs, those of the cases and of the snapshots, which the tables are about, and the largest. The
/// examples and the largest are also dispatched.
pub fn all() -> io::Result<[Group; 3]> {
    let cases = cases().into_iter().map(|case| Task { job: case.job(), budget: case.budget() });
    Ok([
        Group { name: "examples", tasks: examples()?.into_iter().flat_map(Task::both).collect() },
        Group { name: "tables", tasks: cases.chain(snapshots::jobs().map(Task::written)).collect() },
        Group { name: "largest job", tasks: Task::both(largest::job()).into() },
    ])
}

/// The example jobs that are accepted, read from their files.
fn examples() -> io::Result<Vec<Vec<u8>>> {
    let files = fs::read_dir(EXAMPLES)?.collect::<io::Result<Vec<_>>>()?;
    let paths = files.into_iter().map(|file| file.path());
    let jobs = paths.filter(|path| path.extension().is_some_and(|end| end == "job")).map(fs::read);
    Ok(jobs.collect::<io::Result<Vec<_>>>()?.into_iter().filter(|job| decode(job).is_ok()).collect())
}
