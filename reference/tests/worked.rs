//! K1 to K11 of the paper, printed.

mod common;

use common::{bytes, job, k1};
use flow_reference::print::print;
use flow_reference::Mode::{self, Monitored, Unmonitored};

fn check(job: &[u8], mode: Mode, expected: &str) {
    assert_eq!(print(job, mode), expected);
}

/// K1 with another START value.
fn k1_with_start(value: u32) -> Vec<u8> {
    let mut job = k1();
    let at = job.windows(2).position(|pair| pair == [0x50, 0]).unwrap();
    job[at + 2..at + 6].copy_from_slice(&value.to_le_bytes());
    job
}

#[test]
fn k1_printed() {
    assert_eq!(k1().len(), 65);
    let expected = "0 1 255 2\n0 0 0 0\n0 3 0 5\n0 6 0 7\n0 2 0 0\n1 1 0 7\n1 0 0 0\n1 5 0 7\n1 2 0 0\n\
                    end 0 9 0 0 0 0\nnode 0 255 0 0 0\nnode 1 255 0 0 0\nvar 0 5\n\
                    tally 0 1 0 1 0\ntally 1 0 1 1 0\n";
    check(&k1(), Monitored, expected);
    check(&k1(), Unmonitored, expected);
}

#[test]
fn k2_argument_not_permitted() {
    let expected = "0 1 255 3\n0 0 0 0\n0 3 0 5\n0 6 0 8\n0 2 0 0\n1 1 0 8\n1 0 0 0\n\
                    end 1 7 1 5 0 8\nnode 0 255 0 0 0\nnode 1 1 8 8 0\nvar 0 5\n\
                    tally 0 1 0 1 0\ntally 1 0 1 1 0\n";
    check(&k1_with_start(3), Monitored, expected);
}

#[test]
fn k3_the_same_unmonitored() {
    let expected = "0 1 255 3\n0 0 0 0\n0 3 0 5\n0 6 0 8\n0 2 0 0\n1 1 0 8\n1 0 0 0\n1 5 0 8\n1 2 0 0\n\
                    end 0 9 0 0 0 0\nnode 0 255 0 0 0\nnode 1 255 0 0 0\nvar 0 5\n\
                    tally 0 1 0 1 0\ntally 1 0 1 1 0\n";
    check(&k1_with_start(3), Unmonitored, expected);
}

#[test]
fn k4_without_read() {
    let mut job = k1();
    let at = job.windows(3).position(|three| three == [0x32, 0, 0]).unwrap();
    job.drain(at..at + 3);
    let expected = "0 1 255 2\n0 0 0 0\nend 1 2 0 3 0 0\nnode 0 1 2 2 0\nnode 1 255 0 0 0\nvar 0 5\n\
                    tally 0 1 0 1 0\ntally 1 0 0 0 0\n";
    check(&job, Monitored, expected);
}

#[test]
fn k5_first_turn_not_ready() {
    let mut job = k1();
    let at = job.windows(2).position(|pair| pair == [0x60, 0]).unwrap();
    job[at + 1] = 1;
    let expected = "end 2 0 1 0 0 0\nnode 0 255 0 0 1 2 255\nnode 1 255 0 0 0\nvar 0 5\n\
                    tally 0 1 0 0 1\ntally 1 0 0 0 0\n";
    check(&job, Monitored, expected);
    check(&job, Unmonitored, expected);
}

#[test]
fn k6_wraparound() {
    let expected = "0 1 255 4294967294\n0 0 0 0\n0 3 0 5\n0 6 0 3\n0 2 0 0\n1 1 0 3\n1 0 0 0\n\
                    end 1 7 1 5 0 3\nnode 0 255 0 0 0\nnode 1 1 3 3 0\nvar 0 5\n\
                    tally 0 1 0 1 0\ntally 1 0 1 1 0\n";
    check(&k1_with_start(4_294_967_294), Monitored, expected);
}

#[test]
fn k7_own_queue_full() {
    let job = job(&[("01 02 20 00 00 00 40 00 49 00 48 00 50 00 01 00 00 00", 1), ("60 00", 34)]);
    let mut expected = String::from("0 1 255 1\n");
    for _ in 0..16 {
        expected.push_str("0 6 0 0\n0 0 0 0\n");
    }
    expected.push_str("end 3 33 0 6 0 0\nnode 0 0 0 1 16");
    expected.push_str(&" 0 0".repeat(16));
    expected.push_str("\ntally 0 1 16 1 16\n");
    check(&job, Monitored, &expected);
    check(&job, Unmonitored, &expected);
}

#[test]
fn k8_to_k11() {
    for mode in [Monitored, Unmonitored] {
        check(&[], mode, "refused 1 0\n");
        check(&bytes("02"), mode, "refused 6 0\n");
        check(&bytes("01 10"), mode, "refused 3 1\n");
        check(&bytes("01 02 40 00 48 01"), mode, "end 0 0 0 0 0 0\nnode 0 255 0 0 0\ntally 0 0 0 0 0\n");
        check(&bytes("01 02 40 00 48 02"), mode, "refused 9 4\n");
    }
}
