//! A plain model of the run, on the job's bytes and growing lists, against the engine's printed text.

mod common;

use std::collections::VecDeque;

use common::{commands, number, Permissions};
use flow_reference::generate::dispatched::{accepted, Dispatched};
use flow_reference::generate::{case, Kind, Random};
use flow_reference::print::print_run;
use flow_reference::Mode;

#[derive(Clone, Default)]
struct Node {
    body: Vec<Vec<u8>>,
    /// None: idle.
    position: Option<usize>,
    accumulator: u32,
    message: u32,
    /// Values and their senders.
    queue: VecDeque<(u32, u8)>,
    /// Messages put into the queue by START, by SEND, and taken out of it.
    tally: [usize; 3],
}

impl Node {
    /// A message from START, whose sender is 255, or from a node.
    fn put(&mut self, value: u32, sender: u8) {
        self.tally[usize::from(sender != 255)] += 1;
        self.queue.push_back((value, sender));
    }
}

#[derive(Default)]
struct Model {
    nodes: Vec<Node>,
    /// Whether it is shared, and its value.
    variables: Vec<(bool, u32)>,
    answers: Vec<u32>,
    /// Function, argument, answer.
    replies: Vec<(usize, u32, u32)>,
    wires: Vec<[u8; 3]>,
    turns: Vec<u8>,
}

/// Kind, number, value.
type Event = (u8, u8, u32);

fn load(job: &[u8]) -> Model {
    let mut model = Model::default();
    let mut open = 0;
    for command in commands(job) {
        match *command {
            [0x01] => {}
            [0x02] => model.nodes.push(Node::default()),
            [0x10, scope, ..] => model.variables.push((scope > 0, number(command))),
            [0x11, ..] => model.answers.push(number(command)),
            [0x12, function, ..] => {
                model.replies.push((usize::from(function), number(&command[..6]), number(command)));
            }
            [0x20, node, port, target] => model.wires.push([node, port, target]),
            [0x30..=0x34, ..] => {}
            [0x40, node] => open = usize::from(node),
            [0x50, node, ..] => model.nodes[usize::from(node)].put(number(command), 255),
            [0x60, node] => model.turns.push(node),
            _ => model.nodes[open].body.push(command.to_vec()),
        }
    }
    model
}

impl Model {
    fn targets(&self, node: u8, port: u8) -> Vec<usize> {
        let from_port = self.wires.iter().filter(|wire| wire[..2] == [node, port]);
        from_port.map(|wire| usize::from(wire[2])).collect()
    }

    /// What a call gets: that of the reply to it, if there is one.
    fn answer(&self, function: usize, argument: u32) -> u32 {
        let mut answer = self.answers[function];
        for &(of, to, other) in &self.replies {
            if of == function && to == argument {
                answer = other;
            }
        }
        answer
    }

    /// The event that a command would leave.
    fn event(&self, node: u8, command: &[u8]) -> Event {
        let accumulator = self.nodes[usize::from(node)].accumulator;
        let operand = command.get(1).copied().unwrap_or(0);
        let shared = |variable: u8| self.variables[usize::from(variable)].0;
        match command[0] {
            0x43 | 0x46 if shared(operand) => (3, operand, self.variables[usize::from(operand)].1),
            0x44 if shared(operand) => (4, operand, accumulator),
            0x4A => (5, operand, accumulator),
            0x49 => (6, operand, accumulator),
            _ => (0, 0, 0),
        }
    }

    fn perform(&mut self, node: u8, command: &[u8]) {
        let own = &mut self.nodes[usize::from(node)];
        let accumulator = own.accumulator;
        let position = own.position.unwrap();
        own.position = Some(position + 1);
        let operand = usize::from(command.get(1).copied().unwrap_or(0));
        match command[0] {
            0x41 => own.accumulator = number(command),
            0x42 => own.accumulator = own.message,
            0x43 => own.accumulator = self.variables[operand].1,
            0x44 => self.variables[operand].1 = accumulator,
            0x45 => own.accumulator = ((accumulator as u64 + number(command) as u64) % (1 << 32)) as u32,
            0x46 => {
                let sum = accumulator as u64 + self.variables[operand].1 as u64;
                own.accumulator = (sum % (1 << 32)) as u32;
            }
            0x47 if accumulator == 0 => own.position = Some(operand),
            0x48 => own.position = Some(operand),
            0x49 => {
                for target in self.targets(node, operand as u8) {
                    self.nodes[target].put(accumulator, node);
                }
            }
            0x4A => self.nodes[usize::from(node)].accumulator = self.answer(operand, accumulator),
            _ => {}
        }
    }

    /// One turn: its event, or the stop and the attempted event. No permissions: unmonitored.
    fn turn(&mut self, node: u8, permissions: Option<&Permissions>) -> Result<Event, (u8, Event)> {
        let own = &mut self.nodes[usize::from(node)];
        let Some(position) = own.position else {
            let (message, sender) = own.queue.pop_front().ok_or((2, (0, 0, 0)))?;
            own.tally[2] += 1;
            (own.position, own.accumulator, own.message) = (Some(0), 0, message);
            return Ok((1, sender, message));
        };
        let Some(command) = own.body.get(position).cloned() else {
            (own.position, own.accumulator, own.message) = (None, 0, 0);
            return Ok((2, 0, 0));
        };
        let event = self.event(node, &command);
        let (kind, number, value) = event;
        if permissions.is_some_and(|lists| !lists.permit(node, kind, number, value)) {
            return Err((1, (kind, number, if kind == 3 { 0 } else { value })));
        }
        let is_full = |target: usize| self.nodes[target].queue.len() == 16;
        if kind == 6 && self.targets(node, number).into_iter().any(is_full) {
            return Err((3, event));
        }
        self.perform(node, &command);
        Ok(event)
    }

    /// Gives a turn to a node: its line, or the line of the stop.
    fn serve(
        &mut self,
        node: u8,
        lists: Option<&Permissions>,
        lines: &mut Vec<String>,
    ) -> Result<(), String> {
        match self.turn(node, lists) {
            Ok((kind, number, value)) => lines.push(format!("{node} {kind} {number} {value}")),
            Err((stop, (kind, number, value))) => {
                return Err(format!("end {stop} {} {node} {kind} {number} {value}", lines.len()));
            }
        }
        Ok(())
    }

    /// The written turns: the lines of the entries and of the stop.
    fn written(&mut self, lists: Option<&Permissions>) -> Vec<String> {
        let mut lines = Vec::new();
        let stopped =
            self.turns.clone().into_iter().find_map(|node| self.serve(node, lists, &mut lines).err());
        lines.push(stopped.unwrap_or(format!("end 0 {} 0 0 0 0", lines.len())));
        lines
    }

    /// Dispatched: the same lines, and the examined total. The nodes stand in a circle, the next to be examined in front. If
    /// nobody is ready, nobody was examined for that.
    fn dispatched(&mut self, budget: usize, lists: Option<&Permissions>) -> (Vec<String>, usize) {
        let mut circle: VecDeque<u8> = (0..self.nodes.len() as u8).collect();
        let (mut lines, mut examined) = (Vec::new(), 0);
        while lines.len() < budget {
            let is_ready = |node: &u8| {
                let node = &self.nodes[usize::from(*node)];
                node.position.is_some() || !node.queue.is_empty()
            };
            let Some(place) = circle.iter().position(is_ready) else {
                lines.push(format!("end 4 {} 0 0 0 0", lines.len()));
                return (lines, examined);
            };
            examined += place + 1;
            circle.rotate_left(place + 1);
            if let Err(end) = self.serve(circle[circle.len() - 1], lists, &mut lines) {
                lines.push(end);
                return (lines, examined);
            }
        }
        lines.push(format!("end 0 {} 0 0 0 0", lines.len()));
        (lines, examined)
    }

    /// The lines of the nodes, the variables and the tallies.
    fn rest(&self) -> Vec<String> {
        let mut lines = Vec::new();
        for (number, node) in self.nodes.iter().enumerate() {
            let (position, waiting) = (node.position.unwrap_or(255), node.queue.len());
            let mut line =
                format!("node {number} {position} {} {} {waiting}", node.accumulator, node.message);
            node.queue.iter().for_each(|(value, sender)| line += &format!(" {value} {sender}"));
            lines.push(line);
        }
        lines.extend(
            self.variables.iter().enumerate().map(|(number, (_, value))| format!("var {number} {value}")),
        );
        for (number, node) in self.nodes.iter().enumerate() {
            let [started, received, taken] = node.tally;
            lines.push(format!("tally {number} {started} {received} {taken} {}", node.queue.len()));
        }
        lines
    }

    /// What is printed, dispatched if there is a budget.
    fn print(mut self, budget: Option<u64>, lists: Option<&Permissions>) -> String {
        let (entries, examined) = match budget {
            Some(budget) => {
                let (lines, examined) = self.dispatched(budget as usize, lists);
                (lines, vec![format!("examined {examined}")])
            }
            None => (self.written(lists), Vec::new()),
        };
        [entries, self.rest(), examined].concat().join("\n") + "\n"
    }
}

/// The same of both modes by the model and by the engine.
fn check(job: &[u8], budget: Option<u64>, index: u64) {
    let permissions = Permissions::of(job);
    for (mode, lists) in [(Mode::Monitored, Some(&permissions)), (Mode::Unmonitored, None)] {
        assert_eq!(print_run(job, budget, mode), load(job).print(budget, lists), "case {index}");
    }
}

#[test]
fn engine_against_model() {
    for index in 0..2_500 {
        check(&case(12, index, Kind::Valid, usize::MAX).job, None, index);
    }
}

#[test]
fn dispatcher_against_model() {
    for index in 0..2_500 {
        let job = case(13, index, Kind::Valid, usize::MAX).job;
        let Dispatched { job, budget } = accepted(&job, &mut Random::for_case(14, index));
        check(&job, Some(budget), index);
    }
}
