//! Sets of free blocks as plain Rust has them.

use std::collections::BTreeSet;

pub trait Blocks {
    fn new(size: u32) -> Self;
    fn take(&mut self) -> Option<u32>;
    /// Whether the block was owned.
    fn give(&mut self, block: u32) -> bool;
}

/// A flag for each block, and where to look next.
pub struct Flags {
    owned: Vec<bool>,
    cursor: usize,
}

impl Blocks for Flags {
    fn new(size: u32) -> Flags {
        Flags {
            owned: vec![false; size as usize],
            cursor: 0,
        }
    }

    fn take(&mut self) -> Option<u32> {
        let (before, ahead) = self.owned.split_at(self.cursor);
        let free = |flags: &[bool]| flags.iter().position(|owned| !owned);
        let block = free(ahead)
            .map(|i| self.cursor + i)
            .or_else(|| free(before))?;
        self.owned[block] = true;
        self.cursor = (block + 1) % self.owned.len();
        Some(block as u32)
    }

    fn give(&mut self, block: u32) -> bool {
        self.owned
            .get_mut(block as usize)
            .is_some_and(std::mem::take)
    }
}

/// The free blocks, in order.
pub struct Free {
    free: BTreeSet<u32>,
    size: u32,
}

impl Blocks for Free {
    fn new(size: u32) -> Free {
        Free {
            free: (0..size).collect(),
            size,
        }
    }

    fn take(&mut self) -> Option<u32> {
        self.free.pop_first()
    }

    fn give(&mut self, block: u32) -> bool {
        block < self.size && self.free.insert(block)
    }
}
