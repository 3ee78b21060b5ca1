//! Running a job, monitored or not, with its written turns or dispatched, and counting the messages of a run, from Rust:
//! the functions of the proved static libraries librun.a and libtally.a.
//!
//! Document 01, with requests S-1, S-2, S-4, S-5, S-7, S-9, S-11 and S-12 of document 02, says what a job is, what a run
//! does, when a job is refused and what the tally counts; `include/leqsumir.h` says what the functions promise. The
//! lengths below are enough for every job.

/// The longest job that is accepted.
pub const JOB_BYTES: usize = 16_384;

/// An entry of the trace: node 1 byte, kind 1, number 1, value 4, lowest first.
pub const ENTRY_BYTES: usize = 7;

/// 4,096 entries. A trace needs only an entry for each TURN of its job, or for each turn of the budget.
pub const TRACE_BYTES: usize = 28_672;

/// Asked of every job: the longest snapshot, of 32 nodes with 16 waiting messages and their senders, and 64 variables.
/// The snapshot is 01's "end picture".
pub const SNAPSHOT_BYTES: usize = 3_136;

/// Asked of every job: two bytes for each of 64 handler commands of 32 nodes.
pub const WORK_BYTES: usize = 4_096;

/// The counts of a node in a tally: started, received, taken, waiting.
pub const NODE_COUNTS: usize = 4;

/// Those of 32 nodes.
pub const COUNTS: usize = 128;

/// Job, trace, snapshot and work, each as pointer and length, and the eight numbers of the answer.
type Run = unsafe extern "C" fn(*const u8, usize, *mut u8, usize, *mut u8, usize, *mut u8, usize, *mut u64);

/// The same with the budget behind the job, and nine numbers.
type Dispatch =
    unsafe extern "C" fn(*const u8, usize, u64, *mut u8, usize, *mut u8, usize, *mut u8, usize, *mut u64);

extern "C" {
    fn leqsumir_run_monitored(
        job: *const u8,
        job_len: usize,
        trace: *mut u8,
        trace_len: usize,
        snapshot: *mut u8,
        snapshot_len: usize,
        work: *mut u8,
        work_len: usize,
        answer: *mut u64,
    );
    fn leqsumir_run_unmonitored(
        job: *const u8,
        job_len: usize,
        trace: *mut u8,
        trace_len: usize,
        snapshot: *mut u8,
        snapshot_len: usize,
        work: *mut u8,
        work_len: usize,
        answer: *mut u64,
    );
    fn leqsumir_dispatch_monitored(
        job: *const u8,
        job_len: usize,
        budget: u64,
        trace: *mut u8,
        trace_len: usize,
        snapshot: *mut u8,
        snapshot_len: usize,
        work: *mut u8,
        work_len: usize,
        answer: *mut u64,
    );
    fn leqsumir_dispatch_unmonitored(
        job: *const u8,
        job_len: usize,
        budget: u64,
        trace: *mut u8,
        trace_len: usize,
        snapshot: *mut u8,
        snapshot_len: usize,
        work: *mut u8,
        work_len: usize,
        answer: *mut u64,
    );
    fn leqsumir_tally(
        job: *const u8,
        job_len: usize,
        turns: u64,
        trace: *const u8,
        trace_len: usize,
        snapshot: *const u8,
        snapshot_len: usize,
        counts: *mut u64,
        answer: *mut u64,
    );
}

/// Runs a job and stops before the first turn whose entry its lists do not permit.
///
/// The slices may have any length and hold anything before; one that is too short is a refusal, and
/// a refusal changes none of them. The answer: refusal (0: the job ran; 1 to 12, 15 or 19) and its place; stop
/// and completed turns; node, kind, number and value of the attempted entry.
#[inline]
pub fn run_monitored(job: &[u8], trace: &mut [u8], snapshot: &mut [u8], work: &mut [u8]) -> [u64; 8] {
    call(leqsumir_run_monitored, job, trace, snapshot, work)
}

/// The same without the lists: a run that ignores them, with the same refusals.
#[inline]
pub fn run_unmonitored(job: &[u8], trace: &mut [u8], snapshot: &mut [u8], work: &mut [u8]) -> [u64; 8] {
    call(leqsumir_run_unmonitored, job, trace, snapshot, work)
}

/// Runs a job without TURN by the dispatcher, which serves the first ready node after the one served last, at most
/// `budget` times, and stops before the first turn whose entry the lists do not permit.
///
/// Any budget is allowed: 0 and those above 4,096 are a refusal (13), as is a job with a TURN (14). The answer: the eight
/// numbers of a run, with 13 and 14 among the refusals and 4, nobody ready, among the stops; and how many nodes were
/// examined for all choices, none for the one that finds nobody ready.
#[inline]
pub fn dispatch_monitored(
    job: &[u8],
    budget: u64,
    trace: &mut [u8],
    snapshot: &mut [u8],
    work: &mut [u8],
) -> [u64; 9] {
    call_dispatch(leqsumir_dispatch_monitored, job, budget, trace, snapshot, work)
}

/// The same without the lists.
#[inline]
pub fn dispatch_unmonitored(
    job: &[u8],
    budget: u64,
    trace: &mut [u8],
    snapshot: &mut [u8],
    work: &mut [u8],
) -> [u64; 9] {
    call_dispatch(leqsumir_dispatch_unmonitored, job, budget, trace, snapshot, work)
}

/// Counts the messages of each node, from what a run of the job handed over: its completed turns, its trace and its
/// snapshot.
///
/// Node `n` gets its counts from `NODE_COUNTS * n` on: started, received, taken, waiting. After a run, started and received
/// together are taken and waiting together. The slices may have any length and hold anything; the entries that count are the
/// first `turns`, as far as the trace holds them in full. The answer: refusal (0, 1 to 9, 15 or 19) and its place, and the
/// number of nodes, 0 for a refusal. A refusal changes none of the counts; those beyond the job's nodes stay unchanged.
/// Of a run that was refused there is nothing to tally: a job that is refused by 10 to 14 alone is not refused here.
#[inline]
pub fn tally(job: &[u8], turns: u64, trace: &[u8], snapshot: &[u8], counts: &mut [u64; COUNTS]) -> [u64; 3] {
    let mut answer = [u64::MAX; 3];
    // SAFETY: the function keeps no pointer. Every slice is passed with its length, those that are read are not written,
    // there are 128 counts, and the answer has three numbers.
    unsafe {
        leqsumir_tally(
            job.as_ptr(),
            job.len(),
            turns,
            trace.as_ptr(),
            trace.len(),
            snapshot.as_ptr(),
            snapshot.len(),
            counts.as_mut_ptr(),
            answer.as_mut_ptr(),
        );
    }
    answer
}

/// Inlined as its callers are: they then cost no more than the C function.
#[inline]
fn call(run: Run, job: &[u8], trace: &mut [u8], snapshot: &mut [u8], work: &mut [u8]) -> [u64; 8] {
    // No answer has this number: one of the eight that is not written would be seen.
    let mut answer = [u64::MAX; 8];
    // SAFETY: `run` is one of the functions above, which keep no pointer. Every slice is passed
    // with its length, those that are written overlap no other, and the answer has eight numbers.
    unsafe {
        run(
            job.as_ptr(),
            job.len(),
            trace.as_mut_ptr(),
            trace.len(),
            snapshot.as_mut_ptr(),
            snapshot.len(),
            work.as_mut_ptr(),
            work.len(),
            answer.as_mut_ptr(),
        );
    }
    answer
}

/// The same for a dispatched run.
#[inline]
fn call_dispatch(
    dispatch: Dispatch,
    job: &[u8],
    budget: u64,
    trace: &mut [u8],
    snapshot: &mut [u8],
    work: &mut [u8],
) -> [u64; 9] {
    let mut answer = [u64::MAX; 9];
    // SAFETY: as for `call`; the answer has nine numbers.
    unsafe {
        dispatch(
            job.as_ptr(),
            job.len(),
            budget,
            trace.as_mut_ptr(),
            trace.len(),
            snapshot.as_mut_ptr(),
            snapshot.len(),
            work.as_mut_ptr(),
            work.len(),
            answer.as_mut_ptr(),
        );
    }
    answer
}
