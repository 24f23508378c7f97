//! What a run adds up, and the numbers that it draws, as in crates/bench.

use crate::pool::{BLOCK_BYTES, Changed, Refusal};
use std::io;

#[derive(Clone, Copy, Debug, Default)]
pub struct Tally {
    calls: u64,
    refused: u64,
    taken: u64,
    given: u64,
    figures: u64,
}

impl Tally {
    fn refuse(&mut self, refusal: Refusal) {
        self.refused += refusal as u64;
    }

    pub fn figure(&mut self, figure: u32) {
        self.figures += u64::from(figure);
    }

    pub fn change(&mut self, answer: Result<Changed, Refusal>) {
        self.calls += 1;
        match answer {
            Ok(Changed { taken, given }) => {
                self.taken += u64::from(taken);
                self.given += u64::from(given);
            }
            Err(refusal) => self.refuse(refusal),
        }
    }

    pub fn count(&mut self, answer: Result<u32, Refusal>) {
        self.calls += 1;
        match answer {
            Ok(figure) => self.figure(figure),
            Err(refusal) => self.refuse(refusal),
        }
    }

    pub fn read(&mut self, answer: Result<Option<&[u8; BLOCK_BYTES]>, Refusal>) {
        self.count(answer.map(|block| block.map_or(0, |bytes| u32::from(bytes[0]))));
    }

    /// Prints what the calls came to, and waits for a line.
    pub fn mark(&self) -> io::Result<()> {
        let Tally {
            calls,
            refused,
            taken,
            given,
            figures,
        } = self;
        println!(
            "{calls} calls, {refused} refused, {taken} taken, {given} given, {figures} figures"
        );
        io::stdin().read_line(&mut String::new())?;
        Ok(())
    }
}

pub struct Lots {
    state: u64,
}

impl Lots {
    pub fn new() -> Lots {
        Lots { state: 1 }
    }

    /// A number below `end`.
    pub fn below(&mut self, end: u32) -> u32 {
        self.state = self
            .state
            .wrapping_mul(6_364_136_223_846_793_005)
            .wrapping_add(1_442_695_040_888_963_407);
        (self.state >> 33) as u32 % end
    }
}
