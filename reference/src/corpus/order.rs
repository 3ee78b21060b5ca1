//! Commands that fail several tests at once, and jobs with several broken commands.

use super::worlds::{behind, command, full, small};
use super::Job;
use crate::table::{self, *};

/// Jobs whose last command fails this test and later ones as well.
pub fn several(number: u8) -> Vec<Job> {
    match number {
        2 => unknown(),
        3 => [cut(), cut_past_a_count()].concat(),
        4 => [lower(), lower_past_a_count()].concat(),
        5 => past_a_count(),
        6 => undeclared(),
        _ => unreachable!("no test behind {number} can fail at the same command"),
    }
}

/// Behind small declarations.
fn small_and(tails: &[&[u8]]) -> Vec<Job> {
    tails.iter().map(|tail| behind(&small(), tail)).collect()
}

/// A full body of node 1, which sees the variables 1 and 3.
fn full_body() -> Vec<u8> {
    [&[BODY, 1][..], &[SKIP; MAX_BODY_COMMANDS]].concat()
}

/// As many ARG commands as may be.
fn full_args() -> Vec<u8> {
    (0..MAX_ARGS as u32).flat_map(|value| table::write(ARG, &[0, 0, value])).collect()
}

/// As many turns as may be.
fn full_turns() -> Vec<u8> {
    [TURN, 2].repeat(MAX_TURNS)
}

/// 2 before 4 and 5: bytes that are no command of 01, of a lower group or behind a full body. Two of them, REPLY
/// and SPAN now, are cut: 3.
fn unknown() -> Vec<Job> {
    let past_turn = [0x00, 0x0F, 0x12, 0x21, 0x34, 0x4C, 0x51].map(|byte| vec![TURN, 0, byte]);
    let past_body = [0x4C, 0x4F].map(|byte| [full_body(), vec![byte]].concat());
    past_turn.iter().chain(&past_body).map(|tail| behind(&small(), tail)).collect()
}

/// 3 before 6, 7 and 8: undeclared, unseen or repeated as far as the operands go.
fn cut() -> Vec<Job> {
    small_and(&[
        &[VAR, 9, 9, 0, 0, 0],
        &[WIRE, 9],
        &[WIRE, 9, 9],
        &[WIRE, 0, 0, 1, WIRE, 0, 0],
        &[ANY, 9],
        &[ARG, 9, 9, 0, 0, 0],
        &[ARG, 0, 0, 1, 0, 0, 0, ARG, 0, 0, 1, 0, 0],
        &[READ, 9],
        &[WRITE, 9],
        &[START, 9, 0, 0, 0],
        &[START, 0, 1, 0, 0, 0, START, 0, 1, 0, 0],
        &[BODY, 0, BODY],
        &[GET],
        &[SEND],
        &[JUMP],
    ])
}

/// 3 before 5: a cut command behind as many as may be.
fn cut_past_a_count() -> Vec<Job> {
    let mut jobs = vec![behind(&full(), &[VAR, 2, 0, 0, 0, 0]), behind(&full(), &[FUN, 1, 2, 3])];
    for row in COMMANDS.iter().filter(|row| is_handler(row.byte) && row.width > 0) {
        let command = command(&small(), row.byte);
        jobs.push(behind(&small(), &[&full_body()[..], &command[..row.width]].concat()));
    }
    jobs.push(behind(&small(), &[full_args(), vec![ARG, 0, 0, 1, 2, 3]].concat()));
    jobs.push(behind(&small(), &[full_turns(), vec![TURN]].concat()));
    jobs
}

/// 4 before 6, 7 and 8: of a lower group and undeclared, before every BODY, unseen, not shared or repeated.
fn lower() -> Vec<Job> {
    let mut jobs = small_and(&[
        &[TURN, 0, VAR, 9, 0, 0, 0, 0, 0],
        &[TURN, 0, WIRE, 9, 9, 9],
        &[TURN, 0, ANY, 9, 9],
        &[TURN, 0, ARG, 9, 9, 1, 1, 1, 1],
        &[TURN, 0, READ, 9, 9],
        &[TURN, 0, BODY, 9],
        &[TURN, 0, SKIP],
        &[TURN, 0, GET, 9],
        &[TURN, 0, START, 9, 0, 0, 0, 0],
        &[TURN, 0, WIRE, 0, 0, 2],
        &[TURN, 0, READ, 0, 0],
        &[TURN, 0, WRITE, 2, 1],
        &[BODY, 1, TURN, 0, GET, 0],
        &[BODY, 1, START, 0, 1, 0, 0, 0, PUT, 2],
    ]);
    for byte in [WIRE, ANY, ARG, READ, WRITE, BODY, START] {
        let command = command(&small(), byte);
        jobs.push(behind(&small(), &[&command[..], &[TURN, 0], &command].concat()));
    }
    jobs.push(vec![VAR, 2, 0, 1, 0, 0, 0, NODE]);
    jobs
}

/// 4 before 5: of a lower group and past a largest count.
fn lower_past_a_count() -> Vec<Job> {
    let mut jobs: Vec<Job> = [FLOW, NODE, VAR, FUN]
        .map(|byte| behind(&full(), &[vec![TURN, 0], command(&full(), byte)].concat()))
        .to_vec();
    for tail in [&[SKIP][..], &[GET, 0], &[CALL, 9], &[JUMP, 99]] {
        jobs.push(behind(&small(), &[&full_body()[..], &[TURN, 0], tail].concat()));
    }
    jobs.push(behind(&small(), &[full_args(), vec![BODY, 0], command(&small(), ARG)].concat()));
    jobs
}

/// 5 before 6, 7, 8 and 9: past a largest count and undeclared, unseen, repeated or jumping too far.
fn past_a_count() -> Vec<Job> {
    let mut jobs: Vec<Job> = [[9, 0], [0, 32], [1, 8], [2, 1]]
        .map(|[scope, owner]| behind(&full(), &[VAR, scope, owner, 1, 0, 0, 0]))
        .to_vec();
    for tail in
        [[GET, 9], [PUT, 9], [PLUS, 9], [SEND, 4], [CALL, 9], [GET, 0], [PUT, 2], [PLUS, 4], [JUMP, 99]]
    {
        jobs.push(behind(&small(), &[&full_body()[..], &tail].concat()));
    }
    for tail in [[9, 0, 0], [0, 9, 0], [0, 0, 5]] {
        jobs.push(behind(&small(), &[&full_args()[..], &[ARG], &tail, &[0; 3]].concat()));
    }
    jobs.push(behind(&small(), &[full_turns(), vec![TURN, 9]].concat()));
    jobs
}

/// 6 before 7 and 8: undeclared and into another flow; several operands undeclared; unseen before every BODY; a
/// second START, of an undeclared node.
fn undeclared() -> Vec<Job> {
    small_and(&[
        &[WIRE, 0, 4, 2],
        &[WIRE, 2, 255, 0],
        &[WIRE, 9, 9, 9],
        &[ANY, 9, 9],
        &[ARG, 9, 9, 9, 9, 9, 9],
        &[READ, 9, 0],
        &[READ, 0, 9],
        &[WRITE, 9, 9],
        &[GET, 0],
        &[PUT, 9],
        &[JUMP, 99],
        &[VAR, 3, 9, 0, 0, 0, 0],
        &[START, 0, 1, 0, 0, 0, START, 9, 1, 0, 0, 0],
    ])
}

/// Two broken commands, each a refusal of its own: the first goes, but a jump too far waits for all others.
pub fn first_goes() -> Vec<Job> {
    let far_jump = vec![BODY, 0, JUMP, 255];
    let long_body = |node: u8| [&[BODY, node][..], &[SKIP; MAX_BODY_COMMANDS + 1]].concat();
    let start = table::write(START, &[0, 1]);
    let early = [
        vec![0x2F],
        vec![WIRE, 0, 0, 0, FLOW],
        long_body(0),
        vec![WIRE, 0, 4, 0],
        vec![WIRE, 0, 0, 2],
        [WIRE, 0, 0, 0].repeat(2),
        far_jump,
    ];
    let late = [
        vec![0xFF],
        vec![TURN],
        vec![TURN, 0, FLOW],
        long_body(1),
        vec![TURN, 9],
        vec![BODY, 1, GET, 0],
        start.repeat(2),
        vec![BODY, 1, JUMPZ, 2],
    ];
    let both = |first: &Vec<u8>| late.clone().map(|second| behind(&small(), &[first, &second[..]].concat()));
    early.iter().flat_map(both).collect()
}
