//! Whole runs of some jobs, and their tallies, by the proved library and by the second implementation.

pub mod arguments;
pub mod buffers;
pub mod compare;
pub mod dispatched;
pub mod groups;
pub mod job;
pub mod large;
pub mod largest;
pub mod lists;
pub mod proved;
pub mod reference;
pub mod replies;
pub mod runs;
pub mod script;
pub mod snapshots;
pub mod stack;
pub mod tallies;
pub mod window;
