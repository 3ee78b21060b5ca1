//! A part of a trace of instructions and stores, as valgrind's lackey writes it with `--trace-mem=yes`: a line
//! `I  ADDRESS,SIZE` for each instruction, and under it ` L`, ` S` or ` M` and the same for what it loads, stores or
//! does both to.

use std::io::{self, BufRead};
use std::ops::Range;

/// The address of an access that stores.
fn stored(line: &str) -> Option<usize> {
    let rest = line.strip_prefix(" S ").or_else(|| line.strip_prefix(" M "))?;
    usize::from_str_radix(rest.split(',').next()?, 16).ok()
}

/// The instructions from the first to the last of those that store to these addresses, both counted, between the two
/// stores to the mark; none if nothing is stored there, or if the trace does not have both marks.
pub fn instructions(trace: impl BufRead, mark: usize, addresses: Range<usize>) -> io::Result<Option<u64>> {
    let (mut marks, mut count) = (0, 0u64);
    let (mut first, mut last) = (None, None);
    for line in trace.lines() {
        let line = line?;
        if line.starts_with("I ") {
            count += 1;
        } else if let Some(address) = stored(&line) {
            marks += u32::from(address == mark);
            if marks == 1 && addresses.contains(&address) {
                first = first.or(Some(count));
                last = Some(count);
            }
        }
    }
    Ok(first.zip(last).filter(|_| marks == 2).map(|(first, last)| last - first + 1))
}
