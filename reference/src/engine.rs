//! One turn, in place. A stopped turn changes nothing.

use crate::outcome::{kind, stop, Entry, Mode};
use crate::program::{Instruction, Program, Reference};
use crate::state::{Message, NodeState, State, IDLE};

/// Why a turn was not completed, and the entry it attempted.
#[derive(Clone, Copy, Debug, PartialEq, Eq)]
pub struct Halt {
    pub stop: u8,
    pub attempted: Entry,
}

/// Gives one turn to a node. Completed or stopped, it leaves the right ready count.
#[inline]
pub fn turn(program: &Program, state: &mut State, node: u8, mode: Mode) -> Result<Entry, Halt> {
    let result = Turn { program, state, node, mode }.make();
    debug_assert_eq!(state.ready(), state.count_ready());
    result
}

/// The node numbers in a bit set, lowest first.
pub(crate) fn members(mut set: u32) -> impl Iterator<Item = u8> {
    std::iter::from_fn(move || {
        if set == 0 {
            return None;
        }
        let node = set.trailing_zeros() as u8;
        set &= set - 1;
        Some(node)
    })
}

struct Turn<'a> {
    program: &'a Program,
    state: &'a mut State,
    node: u8,
    mode: Mode,
}

impl Turn<'_> {
    #[inline]
    fn make(&mut self) -> Result<Entry, Halt> {
        let position = self.own().position;
        if position == IDLE {
            return self.begin();
        }
        match self.program.instruction(self.node, position) {
            Some(instruction) => self.execute(instruction),
            None => Ok(self.finish()),
        }
    }

    #[inline]
    fn own(&mut self) -> &mut NodeState {
        &mut self.state.nodes[usize::from(self.node)]
    }

    #[inline]
    fn plain(&self, kind: u8) -> Entry {
        Entry::plain(self.node, kind)
    }

    /// The node is ready before, by its message, and after, at work.
    #[inline]
    fn begin(&mut self) -> Result<Entry, Halt> {
        let Some(Message { value, sender }) = self.state.pop(self.node) else {
            return Err(Halt { stop: stop::NOT_READY, attempted: self.plain(0) });
        };
        let own = self.own();
        own.position = 0;
        own.accumulator = 0;
        own.message = value;
        Ok(Entry { node: self.node, kind: kind::BEGIN, number: sender, value })
    }

    #[inline]
    fn finish(&mut self) -> Entry {
        self.state.finish(self.node);
        self.plain(kind::FINISH)
    }

    #[inline]
    fn execute(&mut self, instruction: Instruction) -> Result<Entry, Halt> {
        let mut entry = self.plain(kind::OTHER);
        let own = self.own();
        match instruction {
            Instruction::Set(value) => own.accumulator = value,
            Instruction::Take => own.accumulator = own.message,
            Instruction::Add(value) => own.accumulator = own.accumulator.wrapping_add(value),
            Instruction::Get(reference) => {
                let value = self.read(reference, &mut entry)?;
                self.own().accumulator = value;
            }
            Instruction::Plus(reference) => {
                let value = self.read(reference, &mut entry)?;
                let own = self.own();
                own.accumulator = own.accumulator.wrapping_add(value);
            }
            Instruction::Put(reference) => self.write(reference, &mut entry)?,
            Instruction::Jump(target) => {
                own.position = target;
                return Ok(entry);
            }
            Instruction::JumpZ(target) => {
                if own.accumulator == 0 {
                    own.position = target;
                    return Ok(entry);
                }
            }
            Instruction::Send(port) => entry = self.send(port)?,
            Instruction::Call(function) => entry = self.call(function)?,
            Instruction::Skip => {}
        }
        self.own().position += 1;
        Ok(entry)
    }

    /// Stops a monitored run at an entry that is not permitted.
    #[inline]
    fn monitor(&self, entry: &Entry) -> Result<(), Halt> {
        if self.mode == Mode::Unmonitored || self.program.permits(entry) {
            return Ok(());
        }
        let mut attempted = *entry;
        if entry.kind == kind::READ {
            attempted.value = 0;
        }
        Err(Halt { stop: stop::FORBIDDEN, attempted })
    }

    #[inline]
    fn read(&mut self, reference: Reference, entry: &mut Entry) -> Result<u32, Halt> {
        let value = self.state.variables[usize::from(reference.variable)];
        if reference.shared {
            *entry = Entry { node: self.node, kind: kind::READ, number: reference.variable, value };
            self.monitor(entry)?;
        }
        Ok(value)
    }

    #[inline]
    fn write(&mut self, reference: Reference, entry: &mut Entry) -> Result<(), Halt> {
        let value = self.own().accumulator;
        if reference.shared {
            *entry = Entry { node: self.node, kind: kind::WRITE, number: reference.variable, value };
            self.monitor(entry)?;
        }
        self.state.variables[usize::from(reference.variable)] = value;
        Ok(())
    }

    #[inline]
    fn call(&mut self, function: u8) -> Result<Entry, Halt> {
        let value = self.own().accumulator;
        let entry = Entry { node: self.node, kind: kind::CALL, number: function, value };
        self.monitor(&entry)?;
        self.own().accumulator = self.program.answer(function, value);
        Ok(entry)
    }

    #[inline]
    fn send(&mut self, port: u8) -> Result<Entry, Halt> {
        let targets = self.program.nodes[usize::from(self.node)].wires[usize::from(port)];
        let value = self.own().accumulator;
        let entry = Entry { node: self.node, kind: kind::SEND, number: port, value };
        if members(targets).any(|target| self.state.is_full(target)) {
            return Err(Halt { stop: stop::QUEUE_FULL, attempted: entry });
        }
        for target in members(targets) {
            self.state.send(target, Message { value, sender: self.node });
        }
        Ok(entry)
    }
}
