//! A small generator of numbers (splitmix64), which also knows the commands that are drawn with it.

use crate::table::{Row, COMMANDS, REPLY, SPAN};

#[derive(Clone, Debug)]
pub struct Random {
    state: u64,
    /// Whether SPAN is drawn.
    pub draws_spans: bool,
    /// Whether REPLY is drawn.
    pub draws_replies: bool,
    /// Whether unused permissions are drawn on purpose, and others for what a run does not reach.
    pub draws_unused: bool,
    /// Whether nodes that get messages of several senders are drawn on purpose.
    pub draws_senders: bool,
}

impl Random {
    pub fn new(seed: u64) -> Random {
        Random {
            state: seed,
            draws_spans: true,
            draws_replies: true,
            draws_unused: true,
            draws_senders: true,
        }
    }

    /// A generator of its own for the case `index` of a seed.
    pub fn for_case(seed: u64, index: u64) -> Random {
        let number = Random::new(seed).next_u64();
        Random::new(number ^ index.wrapping_mul(0xD1B5_4A32_D192_ED03))
    }

    /// The same numbers for jobs as they were drawn before messages had senders.
    pub fn without_senders(self) -> Random {
        Random { draws_senders: false, ..self }
    }

    /// The same before permissions could be unused.
    pub fn without_unused(self) -> Random {
        Random { draws_unused: false, ..self.without_senders() }
    }

    /// The same for jobs without REPLY, and with its byte as any other that is no command.
    pub fn without_replies(self) -> Random {
        Random { draws_replies: false, ..self.without_unused() }
    }

    /// The same for jobs of 01's commands alone: without REPLY and SPAN.
    pub fn of_01(self) -> Random {
        Random { draws_spans: false, ..self.without_replies() }
    }

    /// The commands that are drawn.
    pub fn commands(&self) -> Vec<Row> {
        let is_drawn = |row: &&Row| match row.byte {
            SPAN => self.draws_spans,
            REPLY => self.draws_replies,
            _ => true,
        };
        COMMANDS.iter().filter(is_drawn).copied().collect()
    }

    pub fn next_u64(&mut self) -> u64 {
        self.state = self.state.wrapping_add(0x9E37_79B9_7F4A_7C15);
        let mut z = self.state;
        z = (z ^ (z >> 30)).wrapping_mul(0xBF58_476D_1CE4_E5B9);
        z = (z ^ (z >> 27)).wrapping_mul(0x94D0_49BB_1331_11EB);
        z ^ (z >> 31)
    }

    /// A number below `limit`, which is above 0.
    pub fn below(&mut self, limit: usize) -> usize {
        ((self.next_u64() >> 16) % limit as u64) as usize
    }

    /// A number from `low` to `high`, both included.
    pub fn between(&mut self, low: usize, high: usize) -> usize {
        low + self.below(high - low + 1)
    }

    pub fn chance(&mut self, percent: usize) -> bool {
        self.below(100) < percent
    }

    /// One of the items, of which there is at least one.
    pub fn pick<T: Copy>(&mut self, items: &[T]) -> T {
        items[self.below(items.len())]
    }

    /// The index of one of the weights, chosen by weight.
    pub fn weighted(&mut self, weights: &[usize]) -> usize {
        let mut left = self.below(weights.iter().sum());
        for (index, &weight) in weights.iter().enumerate() {
            if left < weight {
                return index;
            }
            left -= weight;
        }
        unreachable!("the weights add up")
    }

    pub fn shuffle<T>(&mut self, items: &mut [T]) {
        for end in (1..items.len()).rev() {
            items.swap(end, self.below(end + 1));
        }
    }

    /// A 32-bit value: mostly small or close to a wraparound.
    pub fn value(&mut self) -> u32 {
        match self.below(10) {
            0..=4 => self.below(6) as u32,
            5 | 6 => (self.below(6) as u32).wrapping_neg(),
            7 => self.pick(&[0x7FFF_FFFF, 0x8000_0000, 0x8000_0001, 255, 256, 65_535, 65_536]),
            _ => self.next_u64() as u32,
        }
    }
}
