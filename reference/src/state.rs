//! The run's state: nodes, queues and variables in flat arrays, and how many nodes are ready (02, S-4).

use crate::program::Program;
use crate::table::{MAX_NODES, MAX_VARIABLES, QUEUE_CAPACITY};

/// Position of an idle node.
pub const IDLE: u8 = 255;
/// Sender of the messages of START.
pub const FROM_START: u8 = 255;

/// A waiting message: its value and the number of the node that sent it.
#[derive(Clone, Copy, Debug, Default, PartialEq, Eq)]
pub struct Message {
    pub value: u32,
    pub sender: u8,
}

#[derive(Clone, Copy, Debug)]
pub struct NodeState {
    pub position: u8,
    /// Slot of the oldest waiting message in the node's ring.
    head: u8,
    waiting: u8,
    /// The node's working value. 01: hand.
    pub accumulator: u32,
    /// The value of the message being handled.
    pub message: u32,
}

#[derive(Clone, Debug)]
pub struct State {
    pub nodes: [NodeState; MAX_NODES],
    pub variables: [u32; MAX_VARIABLES],
    /// One ring of 16 slots a node.
    queues: [Message; MAX_NODES * QUEUE_CAPACITY],
    /// How many nodes are ready: changed with them, and not counted again.
    ready: usize,
}

impl State {
    /// The state before the first turn.
    pub fn new(program: &Program) -> State {
        let idle = NodeState { position: IDLE, head: 0, waiting: 0, accumulator: 0, message: 0 };
        let mut state = State {
            nodes: [idle; MAX_NODES],
            variables: [0; MAX_VARIABLES],
            queues: [Message::default(); MAX_NODES * QUEUE_CAPACITY],
            ready: 0,
        };
        for (value, variable) in state.variables.iter_mut().zip(&program.variables) {
            *value = variable.start;
        }
        for &(node, value) in &program.starts {
            state.push(node, Message { value, sender: FROM_START });
        }
        state.ready = state.count_ready();
        state
    }

    /// How many messages wait at a node.
    pub fn waiting(&self, node: u8) -> usize {
        usize::from(self.nodes[usize::from(node)].waiting)
    }

    pub fn is_full(&self, node: u8) -> bool {
        self.waiting(node) == QUEUE_CAPACITY
    }

    /// The slot of the waiting message `age` places behind the oldest.
    fn slot(&self, node: u8, age: usize) -> usize {
        let head = usize::from(self.nodes[usize::from(node)].head);
        usize::from(node) * QUEUE_CAPACITY + (head + age) % QUEUE_CAPACITY
    }

    /// Puts a message at the back of a queue that is not full.
    fn push(&mut self, node: u8, message: Message) {
        let slot = self.slot(node, self.waiting(node));
        self.queues[slot] = message;
        self.nodes[usize::from(node)].waiting += 1;
    }

    /// A node gets a message, which wakes it if it was not ready.
    pub fn send(&mut self, node: u8, message: Message) {
        self.ready += usize::from(!self.is_ready(node));
        self.push(node, message);
    }

    /// A node at work finishes: it is still ready if a message waits.
    pub fn finish(&mut self, node: u8) {
        let own = &mut self.nodes[usize::from(node)];
        (own.position, own.accumulator, own.message) = (IDLE, 0, 0);
        self.ready -= usize::from(!self.is_ready(node));
    }

    /// Takes the oldest message.
    pub fn pop(&mut self, node: u8) -> Option<Message> {
        if self.waiting(node) == 0 {
            return None;
        }
        let message = self.queues[self.slot(node, 0)];
        let node = &mut self.nodes[usize::from(node)];
        node.head = (node.head + 1) % QUEUE_CAPACITY as u8;
        node.waiting -= 1;
        Some(message)
    }

    /// The waiting messages, oldest first.
    pub fn messages(&self, node: u8) -> impl Iterator<Item = Message> + '_ {
        (0..self.waiting(node)).map(move |age| self.queues[self.slot(node, age)])
    }

    /// A turn of this node would not stop with 2.
    pub fn is_ready(&self, node: u8) -> bool {
        self.nodes[usize::from(node)].position != IDLE || self.waiting(node) > 0
    }

    /// How many nodes are ready, as it is kept.
    pub fn ready(&self) -> usize {
        self.ready
    }

    /// The same, counted. Nodes that the job does not have are idle and get no message.
    pub fn count_ready(&self) -> usize {
        (0..MAX_NODES as u8).filter(|&node| self.is_ready(node)).count()
    }
}
