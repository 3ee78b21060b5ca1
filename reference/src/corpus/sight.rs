//! Refusal 7: every node with every other, and every node with every variable.

use super::worlds::{behind, full, middle, small};
use super::Job;
use crate::generate::plan::Plan;
use crate::table::*;

pub fn jobs() -> Vec<Job> {
    let mut jobs = Vec::new();
    for plan in [small(), middle()] {
        let nodes: Vec<u8> = (0..plan.nodes() as u8).collect();
        jobs.extend(nodes.iter().flat_map(|&node| with_nodes(&plan, node, &nodes)));
        jobs.extend(nodes.iter().flat_map(|&node| with_variables(&plan, node)));
    }
    jobs.extend(largest_numbers());
    jobs
}

/// Wires from a node to each of these.
fn with_nodes(plan: &Plan, node: u8, others: &[u8]) -> Vec<Job> {
    others.iter().map(|&other| behind(plan, &[WIRE, node, (node + other) % 4, other])).collect()
}

/// READ, WRITE, GET, PUT and PLUS of each variable.
fn with_variables(plan: &Plan, node: u8) -> Vec<Job> {
    let mut jobs = Vec::new();
    for variable in 0..plan.variables.len() as u8 {
        jobs.extend([READ, WRITE].map(|byte| behind(plan, &[byte, node, variable])));
        jobs.extend([GET, PUT, PLUS].map(|byte| behind(plan, &[BODY, node, byte, variable])));
    }
    jobs
}

/// The last nodes and variables of a world that has as many as can be.
fn largest_numbers() -> Vec<Job> {
    let plan = full();
    let mut jobs: Vec<Job> = [27, 28, 31].map(|node| behind(&plan, &[WIRE, 31, 3, node])).to_vec();
    for variable in 60..64 {
        jobs.extend([0, 30, 31].map(|node| behind(&plan, &[READ, node, variable, WRITE, node, variable])));
        jobs.push(behind(&plan, &[BODY, 0, SKIP, BODY, 30, GET, variable]));
    }
    jobs
}
