//! Turn schedules, chosen by running the job unmonitored.

use super::random::Random;
use crate::engine::turn;
use crate::outcome::{stop, Entry, Mode};
use crate::program::Program;
use crate::state::State;

/// A schedule and the entries that it makes in an unmonitored run.
pub struct Schedule {
    pub turns: Vec<u8>,
    pub entries: Vec<Entry>,
}

/// Which node is served next.
#[derive(Clone, Copy)]
enum Style {
    /// Any ready node.
    Ready,
    /// The ready nodes in a circle.
    Rotate,
    /// Mostly one node, so that the queues of others fill up.
    Favourite(u8),
    /// Mostly a ready node, now and then any node.
    Careless,
}

fn style(random: &mut Random, nodes: usize) -> Style {
    match random.below(20) {
        0..=8 => Style::Ready,
        9..=12 => Style::Rotate,
        13..=17 => Style::Favourite(random.below(nodes) as u8),
        _ => Style::Careless,
    }
}

fn choose(random: &mut Random, style: Style, ready: &[u8], last: u8, nodes: usize) -> Option<u8> {
    if ready.is_empty() {
        return None;
    }
    let node = match style {
        Style::Ready => random.pick(ready),
        Style::Rotate => *ready.iter().find(|&&node| node > last).unwrap_or(&ready[0]),
        Style::Favourite(node) if ready.contains(&node) && random.chance(80) => node,
        Style::Careless if random.chance(4) => random.below(nodes) as u8,
        _ => random.pick(ready),
    };
    Some(node)
}

/// Makes a schedule of at most `limit` turns.
pub fn schedule(program: &Program, random: &mut Random, limit: usize) -> Schedule {
    let nodes = program.nodes.len();
    let mut made = Schedule { turns: Vec::new(), entries: Vec::new() };
    if nodes == 0 || random.chance(2) {
        return made;
    }
    let style = style(random, nodes);
    // How readily a full queue ends the run, rather than another node being served.
    let patience = random.pick(&[0, 50, 90, 98]);
    let mut state = State::new(program);
    let (mut last, mut waits) = (0, 0);
    while made.turns.len() < limit {
        let ready: Vec<u8> = (0..nodes as u8).filter(|&node| state.is_ready(node)).collect();
        let Some(node) = choose(random, style, &ready, last, nodes) else { break };
        last = node;
        match turn(program, &mut state, node, Mode::Unmonitored) {
            Ok(entry) => {
                made.turns.push(node);
                made.entries.push(entry);
            }
            Err(halt) if halt.stop == stop::QUEUE_FULL && waits < 200 && random.chance(patience) => {
                waits += 1;
            }
            Err(_) => {
                made.turns.push(node);
                trail(&mut made, random, nodes, limit);
                return made;
            }
        }
    }
    end_quietly(&mut made, random, &state, nodes, limit);
    made
}

/// Nothing stopped the run: mostly leave it so, else give a turn to a node that is not ready.
fn end_quietly(made: &mut Schedule, random: &mut Random, state: &State, nodes: usize, limit: usize) {
    let unready: Vec<u8> = (0..nodes as u8).filter(|&node| !state.is_ready(node)).collect();
    if made.turns.len() < limit && !unready.is_empty() && random.chance(45) {
        made.turns.push(random.pick(&unready));
        trail(made, random, nodes, limit);
    }
}

/// Turns after the stop, which must not be served.
fn trail(made: &mut Schedule, random: &mut Random, nodes: usize, limit: usize) {
    for _ in 0..random.below(6) {
        if made.turns.len() < limit {
            made.turns.push(random.below(nodes) as u8);
        }
    }
}
