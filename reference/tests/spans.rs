//! SPAN (02, S-5): which calls it permits, and refusals 3 to 6, 8 and 15 at it.

mod common;

use common::{bytes, print_untallied, refusal, run_dirty, MODES};
use flow_reference::table::{write, ARG, SPAN};
use flow_reference::Mode::{Monitored, Unmonitored};
use flow_reference::{Outcome, Refusal};

const MAX: u32 = u32::MAX;

/// One flow, nodes 0 and 1, functions 0 and 1: 13 bytes.
const BASE: &str = "01 02 02 11 08 00 00 00 11 09 00 00 00";
const LENGTH: usize = 13;

fn span(node: u32, function: u32, low: u32, high: u32) -> Vec<u8> {
    write(SPAN, &[node, function, low, high])
}

/// These bytes behind the declarations.
fn behind_base(rest: &[&[u8]]) -> Vec<u8> {
    [bytes(BASE), rest.concat()].concat()
}

fn refused(rest: &[&[u8]], number: u8, offset: usize) {
    assert_eq!(refusal(&behind_base(rest)), Some((number, LENGTH + offset)), "{rest:?}");
}

/// Accepted, if both nodes call both functions.
fn accepted(rest: &[&[u8]]) {
    let calls = bytes("40 00 4A 00 4A 01 40 01 4A 00 4A 01");
    assert_eq!(refusal(&behind_base(&[&rest.concat(), &calls])), None, "{rest:?}");
}

/// Node 0 calls function 1 with the argument. Whether the monitored run lets it; else it stops there, and shows the
/// argument. The unmonitored run makes the call. Other calls, which use other permissions, are not made.
fn permits(permissions: &[&[u8]], argument: u32) -> bool {
    let start = write(0x50, &[0, argument]);
    let handlers = bytes("40 00 42 4A 01 4A 00 40 01 4A 00 4A 01");
    let job = behind_base(&[&permissions.concat(), &handlers, &start, &[0x60, 0].repeat(3)]);
    let made = format!(
        "0 1 255 {argument}\n0 0 0 0\n0 5 1 {argument}\nend 0 3 0 0 0 0\nnode 0 2 9 {argument} 0\nnode 1 255 0 0 0\n"
    );
    let stopped = format!(
        "0 1 255 {argument}\n0 0 0 0\nend 1 2 0 5 1 {argument}\nnode 0 1 {argument} {argument} 0\nnode 1 255 0 0 0\n"
    );
    assert_eq!(print_untallied(&job, Unmonitored), made);
    let text = print_untallied(&job, Monitored);
    assert!(text == made || text == stopped, "{text}");
    text == made
}

#[test]
fn both_ends_are_included() {
    for (low, high) in [(0, 90), (7, 9), (255, 256), (0x7FFF_FFFF, 0x8000_0000), (0x00FF_FFFF, 0x0100_0000)] {
        let span = span(0, 1, low, high);
        for argument in [low, low + 1, (high - low) / 2 + low, high - 1, high] {
            assert!(permits(&[&span], argument), "{low} to {high}: {argument}");
        }
        let outside = [low.checked_sub(1), Some(high + 1), low.checked_sub(2), Some(high + 2), Some(MAX)];
        for argument in outside.into_iter().flatten() {
            assert!(!permits(&[&span], argument), "{low} to {high}: {argument}");
        }
    }
}

#[test]
fn one_argument_and_all_of_them() {
    for argument in [0, 1, 7, 1 << 31, MAX - 1, MAX] {
        let close = [argument.checked_sub(1), argument.checked_add(1), Some(argument.swap_bytes() ^ 2)];
        assert!(permits(&[&span(0, 1, argument, argument)], argument));
        assert!(permits(&[&span(0, 1, 0, MAX)], argument));
        for other in close.into_iter().flatten() {
            assert!(!permits(&[&span(0, 1, argument, argument)], other), "{argument}: {other}");
        }
    }
    assert!(!permits(&[&span(0, 1, 1, MAX)], 0));
    assert!(!permits(&[&span(0, 1, 0, MAX - 1)], MAX));
}

#[test]
fn of_this_node_and_function_alone() {
    assert!(!permits(&[], 7));
    assert!(!permits(&[&span(1, 1, 0, MAX)], 7));
    assert!(!permits(&[&span(0, 0, 0, MAX)], 7));
    assert!(!permits(&[&span(1, 0, 7, 7), &span(1, 1, 0, 9), &span(0, 0, 0, 9), &span(0, 1, 8, 9)], 7));
    assert!(permits(&[&span(1, 0, 0, 6), &span(1, 1, 8, 9), &span(0, 0, 8, 9), &span(0, 1, 7, 7)], 7));
}

#[test]
fn beside_others() {
    let [low, high] = [span(0, 1, 0, 6), span(0, 1, 8, MAX)];
    assert!(!permits(&[&low, &high], 7));
    assert!(permits(&[&low, &high, &span(0, 1, 4, 7)], 7));
    assert!(permits(&[&span(0, 1, 0, MAX), &low, &high], 7));
    assert!(permits(&[&high, &write(ARG, &[0, 1, 7]), &low], 7));
    assert!(!permits(&[&high, &write(ARG, &[0, 1, 6]), &low], 7));
    assert!(permits(&[&low, &[0x30, 0, 1]], 7));
    assert!(!permits(&[&low, &[0x30, 0, 0], &[0x30, 1, 1]], 7));
}

#[test]
fn accepted_ranges() {
    let one: &[u8] = &span(0, 0, 3, 9);
    for (low, high) in
        [(0, MAX), (0, 0), (MAX, MAX), (3, 8), (4, 9), (9, 20), (10, 20), (0, 2), (5, 6), (1, 30)]
    {
        accepted(&[one, &span(0, 0, low, high)]);
    }
    let arg: &[u8] = &write(ARG, &[0, 0, 7]);
    accepted(&[arg, &span(0, 0, 7, 7)]);
    accepted(&[&span(0, 0, 7, 7), arg, one]);
    accepted(&[&[0x30, 0, 0], one, arg]);
    accepted(&[one, &span(1, 0, 3, 9), &span(0, 1, 3, 9), &span(1, 1, 3, 9)]);
}

#[test]
fn number_3() {
    let whole = span(0, 0, 9, 3);
    for length in 1..whole.len() {
        refused(&[&whole[..length]], 3, 0);
        refused(&[&[0x60, 0], &whole[..length]], 3, 2);
    }
    refused(&[&[0x34, 9, 9]], 3, 0);
}

#[test]
fn number_4() {
    for command in [span(0, 0, 3, 9), span(9, 9, 3, 9), span(0, 0, 9, 3)] {
        refused(&[&[0x40, 0], &command], 4, 2);
        refused(&[&[0x60, 0], &command], 4, 2);
    }
    accepted(&[&span(0, 0, 3, 9), &[0x30, 0, 0], &span(0, 1, 3, 9)]);
    refused(&[&span(0, 0, 3, 9), &[0x20, 0, 0, 0]], 4, 11);
}

/// ARG and SPAN commands in turn, as many as may be, the first so many of them ARG.
fn most(args: u32) -> Vec<u8> {
    let permission =
        |number| if number < args { write(ARG, &[0, 0, number]) } else { span(0, 0, number, 500) };
    (0..256).flat_map(permission).collect()
}

#[test]
fn number_5_counts_both_kinds() {
    for args in [0, 1, 100, 255, 256] {
        let most = most(args);
        accepted(&[&most]);
        let arg = write(ARG, &[1, 1, 1]);
        // Undeclared, repeated if there are ranges, with its low above its high: 5 all the same.
        for one in [arg, span(1, 1, 1, 2), span(9, 9, 1, 2), span(0, 0, 255, 500), span(0, 0, 2, 1)] {
            refused(&[&most, &one], 5, most.len());
        }
        refused(&[&most, &span(1, 1, 1, 2)[..10]], 3, most.len());
        accepted(&[&most, &[0x30, 0, 0], &[0x30, 1, 1]]);
    }
    let most = most(100);
    let last = most.len() - 11;
    refused(&[&most[..last], &span(0, 0, 200, 500)], 8, last);
    refused(&[&most[..last], &span(0, 0, 501, 500)], 15, last);
}

#[test]
fn number_6() {
    for (low, high) in [(3, 9), (9, 3)] {
        refused(&[&span(2, 0, low, high)], 6, 0);
        refused(&[&span(0, 2, low, high)], 6, 0);
        refused(&[&span(255, 255, low, high)], 6, 0);
    }
    accepted(&[&span(1, 1, 3, 9)]);
    assert_eq!(refusal(&span(0, 0, 0, 0)), Some((6, 0)));
}

#[test]
fn number_8() {
    let one: &[u8] = &span(0, 0, 3, 9);
    refused(&[one, one], 8, 11);
    refused(&[one, &span(0, 0, 3, 10), &[0x30, 0, 0], &write(ARG, &[0, 0, 3]), one], 8, 32);
    let arg: &[u8] = &write(ARG, &[0, 0, 7]);
    refused(&[&span(0, 0, 7, 7), arg, &span(0, 0, 7, 7)], 8, 18);
    refused(&[&span(0, 0, 7, 7), arg, arg], 8, 18);
}

#[test]
fn number_15() {
    let ends = [(1, 0), (91, 90), (MAX, 0), (MAX, MAX - 1), (256, 255), (0x0100_0000, 0x00FF_FFFF)];
    for (low, high) in ends.into_iter().chain([(0x8000_0000, 0x7FFF_FFFF), (0x0403_0201, 0x0102_0304)]) {
        refused(&[&span(0, 0, low, high)], 15, 0);
        refused(&[&span(0, 0, high, low), &span(0, 0, low, high)], 15, 11);
        accepted(&[&span(0, 0, high, low)]);
    }
}

/// 15 comes before every later command and before 9, but behind what is wrong with an earlier one.
#[test]
fn number_15_in_its_place() {
    let wrong: &[u8] = &span(0, 0, 9, 3);
    for later in ["FF", "60", "01", "60 02", "32 00 00", "30 00 00 30 00 00", "40 00 48 02"] {
        refused(&[wrong, &bytes(later)], 15, 0);
    }
    refused(&[wrong, wrong], 15, 0);
    refused(&[&bytes("20 00 04 00"), wrong], 6, 0);
    refused(&[&bytes("30 00 00 30 00 00"), wrong], 8, 3);
    refused(&[&span(0, 0, 3, 9), &bytes("40 00 48 02")], 9, 13);
    let short = MODES.map(|mode| run_dirty(&behind_base(&[wrong]), mode, [0; 3], 0).outcome);
    assert_eq!(short, [Outcome::Refused(Refusal { number: 15, place: LENGTH }); 2]);
}
