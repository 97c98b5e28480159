//! Memory that is lent to the library, with guard bytes on both sides that must stay.

use crate::random::Random;
use std::hint::black_box;

const GUARD: usize = 24;

pub struct Lent {
    memory: Vec<u8>,
    before: Vec<u8>,
    start: usize,
    length: usize,
}

impl Lent {
    /// Lends a run that holds these bytes. Its start differs from call to call, so that no alignment
    /// is always met.
    pub fn new(random: &mut Random, content: &[u8]) -> Lent {
        let start = GUARD - random.below(8);
        let mut memory = random.bytes(start);
        memory.extend_from_slice(content);
        memory.extend_from_slice(&random.bytes(GUARD));
        Lent {
            before: memory.clone(),
            memory,
            start,
            length: content.len(),
        }
    }

    /// The run itself.
    pub fn run(&mut self) -> &mut [u8] {
        &mut self.memory[self.start..self.start + self.length]
    }

    /// What the run holds now. The optimiser must not take for granted that memory that was lent for
    /// reading only is as before.
    pub fn content(&self) -> &[u8] {
        &black_box(&self.memory)[self.start..self.start + self.length]
    }

    /// Whether the bytes on both sides of the run are as before.
    pub fn guards_stay(&self) -> bool {
        let memory = black_box(&self.memory);
        let end = self.start + self.length;
        memory[..self.start] == self.before[..self.start] && memory[end..] == self.before[end..]
    }

    /// Whether the bytes on both sides, and those of the run, are as before.
    pub fn stays(&self) -> bool {
        *black_box(&self.memory) == self.before
    }
}
