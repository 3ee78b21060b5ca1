//! How much stack a run takes, and a tally: it is made on a stack of its own, painted with one byte before, and the
//! lowest byte that changed tells how deep it went. For x86-64.
//!
//! The harness's own frames count too, less than 300 bytes. What the deepest function reserves
//! below all that it writes does not.

use std::arch::asm;
use std::hint::black_box;

use crate::dispatched::MOST;
use crate::groups::{Group, Task};
use crate::runs::{Bench, Engine};

/// Far more than a run takes.
const BYTES: usize = 1 << 20;

/// What is made on a painted stack.
pub type Work = extern "C" fn(&mut Bench);

/// The bytes that a whole run takes, or the tally behind it, the most of a group's jobs, monitored and bare. Each is made on
/// two paints, as a byte that it writes may be that of one paint.
pub fn most(engine: Engine, group: &Group, work: Work) -> usize {
    let deepest = |(mode, Task { job, budget }): (_, &Task)| {
        let mut bench = Bench::dispatched(engine, mode, *budget, job.clone(), 0);
        bench.run();
        painted(&mut bench, work, 0x5A).max(painted(&mut bench, work, 0xA5))
    };
    group.runs().map(deepest).max().unwrap_or_default()
}

/// The bytes that the work changes on a stack with this paint, from its top to the lowest.
fn painted(bench: &mut Bench, work: Work, paint: u8) -> usize {
    let mut stack = vec![paint; BYTES];
    let end = stack.as_mut_ptr_range().end;
    let above = end as usize % 16;
    // SAFETY: the top is aligned and has `BYTES` less at most 15 below it, which nothing else uses.
    unsafe { work_below(end.sub(above), work, bench) };
    let untouched = stack.iter().take_while(|&&byte| byte == paint).count();
    assert!(untouched > 0, "it takes more stack than there is");
    BYTES - above - untouched
}

/// A whole run.
pub extern "C" fn run(bench: &mut Bench) {
    black_box(bench.run());
}

/// A tally of as many entries as there can be.
pub extern "C" fn tally(bench: &mut Bench) {
    black_box(bench.tally(MOST));
}

/// Works once, with the stack below `top`.
///
/// # Safety
/// The top is aligned to 16 bytes; the memory below it is long enough and used for nothing else.
unsafe fn work_below(top: *mut u8, work: Work, bench: &mut Bench) {
    // The callee keeps r12.
    asm!(
        "mov r12, rsp",
        "mov rsp, {top}",
        "call {work}",
        "mov rsp, r12",
        top = in(reg) top,
        work = in(reg) work,
        in("rdi") bench,
        out("r12") _,
        clobber_abi("C"),
    );
}
