//! Refusal 8: each wire and permission twice, second bodies and starts; and what only looks repeated.

use super::worlds::{behind, full, middle, small};
use super::Job;
use crate::generate::plan::Plan;
use crate::table::{self, *};

pub fn jobs() -> Vec<Job> {
    let mut jobs = Vec::new();
    for byte in [WIRE, ANY, ARG, READ, WRITE, BODY] {
        jobs.extend(each_again(&small(), &distinct(&small(), byte)));
    }
    for byte in [WIRE, READ, WRITE, BODY] {
        jobs.extend(each_again(&middle(), &distinct(&middle(), byte)));
    }
    [jobs, starts(&small()), starts(&middle()), close_by(), kinds_mixed(), largest_numbers(), late_args()]
        .concat()
}

/// All right commands of a kind, each once; of ports and values only some.
fn distinct(plan: &Plan, byte: u8) -> Vec<Vec<u8>> {
    let nodes = 0..plan.nodes() as u8;
    let with = |numbers: Vec<u8>| -> Vec<Vec<u8>> {
        nodes.clone().flat_map(|node| numbers.iter().map(move |&number| vec![byte, node, number])).collect()
    };
    let variables = (0..plan.variables.len() as u8).collect();
    match byte {
        WIRE => wires(plan),
        ANY => with((0..plan.functions as u8).collect()),
        ARG => {
            let calls = with(vec![0, plan.functions as u8 - 1]);
            calls.into_iter().flat_map(|call| [7, 7 << 8, 7 << 24].map(|value| arg(&call, value))).collect()
        }
        BODY => nodes.map(|node| vec![BODY, node]).collect(),
        _ => with(variables)
            .into_iter()
            .filter(|access| plan.sees(access[1], access[2]) && plan.is_shared(access[2]))
            .collect(),
    }
}

/// ARG of a call, given by its node and function behind a byte, and a value.
fn arg(call: &[u8], value: u32) -> Vec<u8> {
    table::write(ARG, &[call[1].into(), call[2].into(), value])
}

/// Wires between the nodes of each flow, at the first and the last port.
fn wires(plan: &Plan) -> Vec<Vec<u8>> {
    let mut list = Vec::new();
    for flow in 0..plan.flows as u8 {
        for node in plan.nodes_of(flow) {
            for target in plan.nodes_of(flow) {
                list.extend([0, 3].map(|port| vec![WIRE, node, port, target]));
            }
        }
    }
    list
}

/// The commands one after another; and again with one of them repeated, each in its turn.
fn each_again(plan: &Plan, commands: &[Vec<u8>]) -> Vec<Job> {
    let all = behind(plan, &commands.concat());
    let mut jobs: Vec<Job> = commands.iter().map(|command| [&all, &command[..]].concat()).collect();
    jobs.push(all);
    jobs
}

/// Two STARTs, of every node with every other; in different flows they are accepted.
fn starts(plan: &Plan) -> Vec<Job> {
    let mut jobs = Vec::new();
    for first in 0..plan.nodes() as u32 {
        for second in 0..plan.nodes() as u32 {
            let pair = [table::write(START, &[first, 1]), table::write(START, &[second, 2])].concat();
            jobs.push(behind(plan, &pair));
        }
    }
    jobs
}

/// Commands that differ in one operand alone: accepted.
fn close_by() -> Vec<Job> {
    let value = 0x0102_0304;
    let mut pairs = vec![
        (WIRE, vec![0, 1, 0], vec![1, 1, 0]),
        (WIRE, vec![0, 1, 0], vec![0, 2, 0]),
        (WIRE, vec![0, 1, 0], vec![0, 1, 1]),
        (ANY, vec![0, 0], vec![1, 0]),
        (ANY, vec![0, 0], vec![0, 1]),
        (ARG, vec![0, 0, value], vec![1, 0, value]),
        (ARG, vec![0, 0, value], vec![0, 1, value]),
        (READ, vec![0, 1], vec![1, 1]),
        (READ, vec![0, 1], vec![0, 3]),
        (WRITE, vec![0, 1], vec![1, 1]),
        (WRITE, vec![0, 1], vec![0, 3]),
    ];
    pairs.extend((0..32).map(|bit| (ARG, vec![0, 0, value], vec![0, 0, value ^ 1 << bit])));
    let job = |(byte, first, second): (u8, Vec<u32>, Vec<u32>)| {
        behind(&small(), &[table::write(byte, &first), table::write(byte, &second)].concat())
    };
    pairs.into_iter().map(job).collect()
}

/// ANY beside ARG of the same call and READ beside WRITE, in either order; then one of the two once more.
fn kinds_mixed() -> Vec<Job> {
    let commands = [vec![ANY, 0, 0], vec![ARG, 0, 0, 0, 0, 0, 0], vec![READ, 0, 3], vec![WRITE, 0, 3]];
    let mut jobs = Vec::new();
    for first in &commands {
        for second in &commands {
            for last in [&[], &first[..], &second[..]] {
                jobs.push(behind(&small(), &[first, &second[..], last].concat()));
            }
        }
    }
    jobs
}

/// Repeats of the last nodes, functions and variables that can be.
fn largest_numbers() -> Vec<Job> {
    let commands: [&[u8]; 7] = [
        &[WIRE, 31, 3, 31],
        &[ANY, 31, 31],
        &[ARG, 31, 31, 255, 255, 255, 255],
        &[READ, 31, 62],
        &[WRITE, 31, 62],
        &[BODY, 31],
        &[START, 31, 0, 0, 0, 0],
    ];
    let twice = |command: &&[u8]| behind(&full(), &command.repeat(2));
    commands.iter().map(twice).collect()
}

/// Of 256 ARG commands the last repeats one: the first, one in the middle, the one before it.
fn late_args() -> Vec<Job> {
    let arg = |value: u32| table::write(ARG, &[1, 1, value]);
    let most: Vec<Vec<u8>> = (1..MAX_ARGS as u32).map(arg).collect();
    [1, 128, 255].map(|value| behind(&small(), &[most.concat(), arg(value)].concat())).to_vec()
}
