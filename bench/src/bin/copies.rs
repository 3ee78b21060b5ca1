//! Runs a job and prints the calls of memcpy and memmove per run, and the bytes that they copied per run.
//!
//! The linker turns every call of the two, in the static library, the second implementation and the
//! standard library alike, into a call of the counting functions below (see `build.rs`). Copies that the
//! compiler wrote out as single moves are no calls and are not counted here; the bytes stored have them.

use std::ffi::c_void;
use std::hint::black_box;
use std::process::ExitCode;
use std::sync::atomic::{AtomicU64, Ordering::Relaxed};

use flow_bench::arguments;

static CALLS: AtomicU64 = AtomicU64::new(0);
static BYTES: AtomicU64 = AtomicU64::new(0);

extern "C" {
    /// The C library's memcpy.
    fn __real_memcpy(to: *mut c_void, from: *const c_void, bytes: usize) -> *mut c_void;
    /// The C library's memmove.
    fn __real_memmove(to: *mut c_void, from: *const c_void, bytes: usize) -> *mut c_void;
}

fn count(bytes: usize) {
    CALLS.fetch_add(1, Relaxed);
    BYTES.fetch_add(bytes as u64, Relaxed);
}

/// Counts a call of memcpy and makes it.
///
/// # Safety
/// As memcpy.
#[no_mangle]
pub unsafe extern "C" fn __wrap_memcpy(to: *mut c_void, from: *const c_void, bytes: usize) -> *mut c_void {
    count(bytes);
    __real_memcpy(to, from, bytes)
}

/// Counts a call of memmove and makes it.
///
/// # Safety
/// As memmove.
#[no_mangle]
pub unsafe extern "C" fn __wrap_memmove(to: *mut c_void, from: *const c_void, bytes: usize) -> *mut c_void {
    count(bytes);
    __real_memmove(to, from, bytes)
}

/// Calls and bytes so far.
fn counted() -> (u64, u64) {
    (CALLS.load(Relaxed), BYTES.load(Relaxed))
}

/// Whether a copy whose length is known only when it runs is counted, so that a count of 0 means something.
fn is_counting() -> bool {
    let (from, mut to) = ([7u8; 64], [0u8; 64]);
    let (calls, bytes) = counted();
    let length = black_box(40);
    to[..length].copy_from_slice(black_box(&from[..length]));
    black_box(&to);
    counted() == (calls + 1, bytes + 40)
}

fn main() -> ExitCode {
    let words: Vec<String> = std::env::args().skip(1).collect();
    let words: Vec<&str> = words.iter().map(String::as_str).collect();
    let Some((mut bench, runs)) = arguments::read(&words) else {
        eprintln!("usage: copies ENGINE MODE CASE RUNS\n{}", arguments::WORDS);
        return ExitCode::from(2);
    };
    if !is_counting() {
        eprintln!("copies: calls of memcpy are not counted");
        return ExitCode::FAILURE;
    }
    let before = counted();
    black_box(bench.runs(runs));
    let after = counted();
    println!("{} {}", (after.0 - before.0) / u64::from(runs), (after.1 - before.1) / u64::from(runs));
    ExitCode::SUCCESS
}
