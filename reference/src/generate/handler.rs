//! Handlers: random commands, relays, countdown loops, endless senders.

use super::plan::Plan;
use super::random::Random;
use crate::table::*;

/// A handler command: byte and operand.
type Line = (u8, Option<u32>);

pub fn handlers(plan: &mut Plan, random: &mut Random, longest: usize) {
    let mut nodes: Vec<u8> = (0..plan.nodes() as u8).collect();
    random.shuffle(&mut nodes);
    for node in nodes {
        if random.chance(6) {
            continue;
        }
        plan.push(BODY, &[node.into()]);
        let author = Author::new(plan, node);
        let lines = match random.below(20) {
            0 => Vec::new(),
            1 | 2 if longest >= 6 => author.countdown(random),
            3 | 4 => author.endless(random),
            5..=16 => author.relay(random, longest),
            _ => author.any(random, longest),
        };
        for (byte, operand) in lines {
            plan.push(byte, operand.as_slice());
        }
    }
}

/// What the handler of one node may name.
struct Author {
    visible: Vec<u8>,
    shared: Vec<u8>,
    wired: Vec<u8>,
    functions: usize,
}

impl Author {
    fn new(plan: &Plan, node: u8) -> Author {
        let visible: Vec<u8> =
            (0..plan.variables.len() as u8).filter(|&variable| plan.sees(node, variable)).collect();
        let shared = visible.iter().copied().filter(|&variable| plan.is_shared(variable)).collect();
        let wires = &plan.groups[usize::from(group(WIRE))];
        let wired = wires.iter().filter(|wire| wire[1] == node).map(|wire| wire[2]).collect();
        Author { visible, shared, wired, functions: plan.functions }
    }

    fn any(&self, random: &mut Random, longest: usize) -> Vec<Line> {
        let count = random.between(1, longest);
        (0..count).map(|at| self.line(random, at, count)).collect()
    }

    /// Takes the message first, sends later on, and accesses something between if there is room.
    fn relay(&self, random: &mut Random, longest: usize) -> Vec<Line> {
        let mut lines = self.any(random, longest);
        lines[0] = (TAKE, None);
        if lines.len() > 1 {
            let send = random.between(1, lines.len() - 1);
            lines[send] = self.send(random);
            if send > 1 {
                lines[random.between(1, send - 1)] = self.access(random);
            }
        }
        lines
    }

    /// A read, a write or a call, if the node has any.
    fn access(&self, random: &mut Random) -> Line {
        match random.below(4) {
            0 => self.with_variable(random, GET),
            1 => self.with_variable(random, PLUS),
            2 => self.with_variable(random, PUT),
            _ => self.call(random),
        }
    }

    fn call(&self, random: &mut Random) -> Line {
        if self.functions == 0 {
            return (SKIP, None);
        }
        (CALL, Some(random.below(self.functions) as u32))
    }

    /// Sends several times: the accumulator counts down to 0.
    fn countdown(&self, random: &mut Random) -> Vec<Line> {
        let first = random.between(2, 9) as u32;
        let down = (ADD, Some(u32::MAX));
        vec![(SET, Some(first)), self.send(random), down, (JUMPZ, Some(5)), (JUMP, Some(1)), (SKIP, None)]
    }

    fn endless(&self, random: &mut Random) -> Vec<Line> {
        vec![self.send(random), (JUMP, Some(0))]
    }

    fn send(&self, random: &mut Random) -> Line {
        let wired = !self.wired.is_empty() && random.chance(90);
        let port = if wired { random.pick(&self.wired) } else { random.below(PORTS) as u8 };
        (SEND, Some(port.into()))
    }

    fn line(&self, random: &mut Random, at: usize, count: usize) -> Line {
        match random.weighted(&[6, 10, 10, 10, 10, 10, 8, 4, 16, 10, 3]) {
            0 => (SET, Some(random.value())),
            1 => (TAKE, None),
            2 => self.with_variable(random, GET),
            3 => self.with_variable(random, PUT),
            4 => (ADD, Some(random.value())),
            5 => self.with_variable(random, PLUS),
            6 => (JUMPZ, Some(jump(random, at, count))),
            7 => (JUMP, Some(jump(random, at, count))),
            8 => self.send(random),
            9 => self.call(random),
            _ => (SKIP, None),
        }
    }

    fn with_variable(&self, random: &mut Random, byte: u8) -> Line {
        let variables =
            if self.shared.is_empty() || random.chance(30) { &self.visible } else { &self.shared };
        if variables.is_empty() {
            return (ADD, Some(random.value()));
        }
        (byte, Some(random.pick(variables).into()))
    }
}

/// A jump target: forward, to the end, backward or onto itself.
fn jump(random: &mut Random, at: usize, count: usize) -> u32 {
    let target = match random.below(10) {
        0..=5 => random.between(at + 1, count),
        6 | 7 => count,
        _ => random.between(0, at),
    };
    target as u32
}
