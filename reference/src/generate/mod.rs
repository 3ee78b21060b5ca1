//! Seeded generator of cases: valid jobs, damaged jobs, short buffers; and dispatched runs of their jobs.

mod accesses;
pub mod buffers;
mod case;
pub mod count;
pub mod damage;
mod declare;
pub mod dispatched;
mod handler;
mod noise;
mod permit;
pub mod plan;
mod random;
mod reason;
mod reply;
mod schedule;
pub mod secret;
mod shape;
mod size;
pub mod uses;
pub mod valid;
pub mod walk;
mod wire;

pub use case::{case, draw_case, Case, Kind};
pub use random::Random;
pub use reason::Reason;
