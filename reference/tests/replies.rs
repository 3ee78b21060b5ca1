//! REPLY (02, S-1): which answer a call gets, and refusals 3 to 6 and 8 at it.

mod common;

use common::{bytes, print_untallied, refusal, MODES};
use flow_reference::table::write;
use flow_reference::Mode;

const MAX: u32 = u32::MAX;

/// One flow, nodes 0 and 1, functions 0 and 1, which answer 8 and 9: 13 bytes.
const BASE: &str = "01 02 02 11 08 00 00 00 11 09 00 00 00";
const LENGTH: usize = 13;

fn reply(function: u32, argument: u32, answer: u32) -> Vec<u8> {
    write(0x12, &[function, argument, answer])
}

/// These bytes behind the declarations.
fn behind_base(rest: &[&[u8]]) -> Vec<u8> {
    [bytes(BASE), rest.concat()].concat()
}

fn refused(rest: &[&[u8]], number: u8, offset: usize) {
    assert_eq!(refusal(&behind_base(rest)), Some((number, LENGTH + offset)), "{rest:?}");
}

fn accepted(rest: &[&[u8]]) {
    assert_eq!(refusal(&behind_base(rest)), None, "{rest:?}");
}

/// What a call of function 1 with the argument gets beside these replies, in both modes.
fn answer(replies: &[&[u8]], argument: u32) -> u32 {
    let start = write(0x50, &[0, argument]);
    let tail = [&bytes("30 00 01 40 00 42 4A 01")[..], &start, &[0x60, 0].repeat(3)].concat();
    let job = behind_base(&[&replies.concat(), &tail]);
    let [one, two] = MODES.map(|mode| {
        let text = print_untallied(&job, mode);
        let entries = format!("0 1 255 {argument}\n0 0 0 0\n0 5 1 {argument}\nend 0 3 0 0 0 0\nnode 0 2 ");
        let rest = text.strip_prefix(&entries).unwrap_or_else(|| panic!("{text}"));
        rest.split(' ').next().and_then(|word| word.parse().ok()).expect("an accumulator")
    });
    assert_eq!(one, two);
    one
}

#[test]
fn a_reply_to_the_argument() {
    for argument in [0, 1, 7, 255, 256, 0x0102_0304, 1 << 31, MAX - 1, MAX] {
        for recorded in [0, 1, 9, argument, MAX, 0x0403_0201] {
            let reply: &[u8] = &reply(1, argument, recorded);
            assert_eq!(answer(&[reply], argument), recorded);
            let close =
                [argument.wrapping_add(1), argument.wrapping_sub(1), argument ^ 1 << 31, argument ^ 1 << 8];
            for other in close {
                assert_eq!(answer(&[reply], other), 9, "{argument}: {other}");
            }
        }
    }
    assert_eq!(answer(&[], 7), 9);
}

#[test]
fn of_this_function_alone() {
    assert_eq!(answer(&[&reply(0, 7, 5)], 7), 9);
    assert_eq!(answer(&[&reply(0, 7, 5), &reply(1, 7, 6)], 7), 6);
    assert_eq!(answer(&[&reply(1, 7, 6), &reply(0, 7, 5)], 7), 6);
    assert_eq!(answer(&[&reply(1, 8, 6), &reply(0, 7, 5)], 7), 9);
}

#[test]
fn several_in_any_order() {
    let list = [(3, 30), (7, 70), (11, 110), (0, 1), (MAX, 2)].map(|(to, answer)| reply(1, to, answer));
    for shift in 0..list.len() {
        let mut order: Vec<&[u8]> = list.iter().map(Vec::as_slice).collect();
        order.rotate_left(shift);
        for reversed in [false, true] {
            assert_eq!(
                [3, 7, 11, 0, MAX, 5].map(|to| answer(&order, to)),
                [30, 70, 110, 1, 2, 9],
                "{reversed}"
            );
            order.reverse();
        }
    }
}

/// The entry shows the argument, and the lists judge it; the next call asks with the answer.
#[test]
fn lists_judge_the_argument() {
    let tail = bytes("40 00 42 4A 01 4A 01 50 00 07 00 00 00 60 00 60 00 60 00 60 00");
    let printed = |arguments: &[u32], mode| {
        let args: Vec<u8> = arguments.iter().flat_map(|&value| write(0x31, &[0, 1, value])).collect();
        print_untallied(&behind_base(&[&reply(1, 7, 5), &reply(1, 5, 0), &args, &tail]), mode)
    };
    let made = "0 1 255 7\n0 0 0 0\n0 5 1 7\n0 5 1 5\nend 0 4 0 0 0 0\nnode 0 3 0 7 0\nnode 1 255 0 0 0\n";
    let second = "0 1 255 7\n0 0 0 0\n0 5 1 7\nend 1 3 0 5 1 5\nnode 0 2 5 7 0\nnode 1 255 0 0 0\n";
    let first = "0 1 255 7\n0 0 0 0\nend 1 2 0 5 1 7\nnode 0 1 7 7 0\nnode 1 255 0 0 0\n";
    assert_eq!(printed(&[], Mode::Unmonitored), made);
    for (arguments, expected) in [(&[7, 5][..], made), (&[7], second), (&[7, 0], second), (&[5, 0], first)] {
        assert_eq!(printed(arguments, Mode::Monitored), expected);
    }
}

#[test]
fn accepted_replies() {
    let one: &[u8] = &reply(0, 7, 5);
    accepted(&[one, &reply(0, 7 << 8, 5), &reply(0, 7 << 24, 5), &reply(0, 6, 5), &reply(0, 5, 7)]);
    accepted(&[one, &reply(1, 7, 5), &reply(1, 8, 5)]);
    accepted(&[&reply(0, 7, 8), &reply(1, 7, 9)]);
    accepted(&[&reply(0, 0, 0), &reply(0, MAX, MAX)]);
    // Between variables and functions, behind its own.
    let [variable, function] = ["10 02 00 05 00 00 00", "11 03 00 00 00"].map(bytes);
    accepted(&[one, &variable, &reply(1, 7, 5), &function, &reply(2, 7, 5), &variable, &reply(0, 8, 5)]);
    assert_eq!(refusal(&[function, reply(0, 1, 2)].concat()), None);
}

#[test]
fn number_3() {
    let whole = reply(9, 7, 5);
    for length in 1..whole.len() {
        refused(&[&whole[..length]], 3, 0);
        refused(&[&[0x60, 0], &whole[..length]], 3, 2);
    }
}

#[test]
fn number_4() {
    let one: &[u8] = &reply(0, 7, 5);
    for higher in ["20 00 00 01", "30 00 00", "40 00", "50 00 01 00 00 00", "60 00"] {
        let higher = bytes(higher);
        refused(&[&higher, one], 4, higher.len());
        refused(&[&higher, &reply(9, 7, 5)], 4, higher.len());
        refused(&[one, &higher, one], 4, 10 + higher.len());
    }
    refused(&[one, &[0x01]], 4, 10);
    refused(&[one, &[0x02]], 4, 10);
    accepted(&[one, &bytes("20 00 00 01")]);
}

/// As many replies as may be, to the arguments from 1 on, of the two functions in turn.
fn most() -> Vec<u8> {
    (0..128).flat_map(|number| reply(number % 2, 1 + number / 2, number)).collect()
}

#[test]
fn number_5() {
    let most = most();
    accepted(&[&most]);
    // One more: right, undeclared, repeated with its answer and with another.
    for one in [reply(0, 65, 1), reply(9, 65, 1), reply(0, 1, 0), reply(0, 1, 77)] {
        refused(&[&most, &one], 5, most.len());
        refused(&[&most, &bytes("20 00 00 01"), &one], 4, most.len() + 4);
    }
    refused(&[&most, &reply(0, 65, 1)[..9]], 3, most.len());
    let last = most.len() - 10;
    refused(&[&most[..last], &reply(2, 65, 1)], 6, last);
    refused(&[&most[..last], &reply(1, 1, 77)], 8, last);
    accepted(&[&most[..last], &reply(1, 65, 9)]);
    let of_one: Vec<u8> = (0..128).flat_map(|number| reply(1, MAX - number, 9)).collect();
    accepted(&[&of_one]);
    refused(&[&of_one, &reply(0, 1, 1)], 5, 1_280);
}

/// Every other count goes on as before: variables, functions, ARG and SPAN.
#[test]
fn a_count_of_its_own() {
    let variables = bytes("10 02 00 05 00 00 00").repeat(64);
    let functions = bytes("11 03 00 00 00").repeat(30);
    let list: Vec<u8> = (0..256).flat_map(|number| write(0x31, &[1, 1, number])).collect();
    let full = [most(), variables, functions].concat();
    accepted(&[&full, &list, &bytes("40 01 4A 01")]);
    refused(&[&full, &bytes("10 02 00 05 00 00 00")], 5, full.len());
    refused(&[&full, &bytes("11 03 00 00 00")], 5, full.len());
    refused(&[&full, &reply(31, 7, 5)], 5, full.len());
    refused(&[&full, &list, &write(0x34, &[0, 0, 1, 2])], 5, full.len() + list.len());
}

#[test]
fn number_6() {
    for function in [2, 3, 31, 255] {
        refused(&[&reply(function, 7, 5)], 6, 0);
        refused(&[&reply(1, 7, 5), &reply(function, 7, 5)], 6, 10);
    }
    // Before its FUN, which is of the same group.
    assert_eq!(refusal(&reply(0, 7, 5)), Some((6, 0)));
    assert_eq!(refusal(&[reply(0, 7, 5), bytes("11 08 00 00 00")].concat()), Some((6, 0)));
    refused(&[&reply(2, 7, 5), &bytes("11 08 00 00 00")], 6, 0);
}

#[test]
fn number_8() {
    let one: &[u8] = &reply(0, 7, 5);
    for again in [5, 6, 8, 5 << 24, 0] {
        refused(&[one, &reply(0, 7, again)], 8, 10);
        refused(
            &[one, &reply(1, 7, 5), &bytes("11 03 00 00 00"), &reply(0, 8, 5), &reply(0, 7, again)],
            8,
            35,
        );
    }
    refused(&[&reply(0, 7, 8), &reply(0, 7, 8)], 8, 10);
    for argument in [0, MAX] {
        refused(&[&reply(1, argument, 1), &reply(0, argument, 1), &reply(1, argument, 2)], 8, 20);
    }
}

/// The first command goes, and a jump too far waits for all others.
#[test]
fn in_its_place() {
    let [one, other]: [&[u8]; 2] = [&reply(0, 7, 5), &reply(0, 7, 6)];
    let undeclared: &[u8] = &reply(2, 7, 5);
    for later in ["FF", "60", "01", "60 02", "32 00 00", "34 00 00 09 00 00 00 03 00 00 00", "40 00 48 02"] {
        refused(&[one, other, &bytes(later)], 8, 10);
        refused(&[undeclared, &bytes(later)], 6, 0);
    }
    refused(&[one, undeclared, other], 6, 10);
    refused(&[one, other, undeclared], 8, 10);
    refused(&[&bytes("10 03 00 00 00 00 00"), one, other], 6, 0);
    refused(&[one, &bytes("40 00 48 02")], 9, 12);
}
