//! The workloads, as in crates/bench.

use crate::allocators::Blocks;
use crate::pool::{Changed, Pool, Refusal};
use crate::tally::{Lots, Tally};
use std::io;

#[derive(Clone, Copy, PartialEq, Eq)]
pub enum Calls {
    Any,
    Edits,
    Figures,
    Oldest,
    Newest,
    Scattered,
}

const OLDEST: u32 = 2;
const MOST_SNAPSHOTS: u32 = 200;
const HEIGHT: u32 = 4;
const POSITIONS: u32 = 256;
const EDITS: u32 = 96;
const TEXT: &[u8; 64] = b"Monday maths, Tuesday art, Wednesday music, Thursday PE, Friday.";

#[derive(Clone, Copy)]
pub struct History {
    head: u32,
    snapshots: u32,
}

impl History {
    pub fn on(blocks: u32, head: u32) -> History {
        let snapshots = blocks * MOST_SNAPSHOTS / 32_768;
        History { head, snapshots }
    }

    fn end(self) -> u32 {
        self.snapshots + OLDEST
    }
}

fn text(lots: &mut Lots) -> &'static [u8] {
    &TEXT[lots.below(64) as usize..]
}

fn any_call(pool: &mut Pool, lots: &mut Lots, tally: &mut Tally) {
    let number = 1 + lots.below(9);
    let other = 1 + lots.below(9);
    let position = lots.below(64);
    match lots.below(32) {
        0..=3 => tally.change(pool.create(number, 1 + lots.below(4))),
        4 => tally.change(pool.snapshot(number, other)),
        5 => tally.change(pool.clone_snapshot(number, other)),
        6 => tally.change(pool.destroy(number)),
        7 => tally.count(pool.unique(number)),
        8 => tally.count(pool.used(number)),
        9..=12 => tally.read(pool.read(number, position)),
        13 | 14 => tally.change(pool.discard(number, position)),
        _ => tally.change(pool.write(number, position, text(lots))),
    }
}

fn edit(pool: &mut Pool, head: u32, lots: &mut Lots, tally: &mut Tally) {
    let position = lots.below(POSITIONS);
    if lots.below(8) == 0 {
        tally.change(pool.discard(head, position));
    } else {
        tally.change(pool.write(head, position, text(lots)));
    }
}

fn grow(pool: &mut Pool, history: History, lots: &mut Lots, tally: &mut Tally) {
    tally.change(pool.create(history.head, HEIGHT));
    for snapshot in OLDEST..history.end() {
        for _ in 0..EDITS {
            edit(pool, history.head, lots, tally);
        }
        tally.change(pool.snapshot(history.head, snapshot));
    }
}

fn edit_and_read(pool: &mut Pool, history: History, lots: &mut Lots, tally: &mut Tally) {
    for _ in 0..10_000 {
        edit(pool, history.head, lots, tally);
        let snapshot = lots.below(history.end()).max(OLDEST);
        tally.read(pool.read(snapshot, lots.below(POSITIONS)));
    }
}

fn ask_figures(pool: &Pool, history: History, tally: &mut Tally) {
    for _ in 0..100 {
        for number in std::iter::once(history.head).chain(OLDEST..history.end()) {
            tally.count(pool.unique(number));
            tally.count(pool.used(number));
        }
    }
}

fn scattered() -> Vec<u32> {
    let mut numbers: Vec<u32> = (OLDEST..OLDEST + MOST_SNAPSHOTS).collect();
    numbers.sort_unstable_by_key(|number| number.wrapping_mul(2_654_435_769));
    numbers
}

fn destroy_all(pool: &mut Pool, numbers: impl IntoIterator<Item = u32>, tally: &mut Tally) {
    for number in numbers {
        tally.change(pool.destroy(number));
    }
}

fn perform(pool: &mut Pool, calls: Calls, history: History, lots: &mut Lots, tally: &mut Tally) {
    let end = history.end();
    match calls {
        Calls::Any => (0..10_000).for_each(|_| any_call(pool, lots, tally)),
        Calls::Edits => edit_and_read(pool, history, lots, tally),
        Calls::Figures => ask_figures(pool, history, tally),
        Calls::Oldest => destroy_all(pool, OLDEST..end, tally),
        Calls::Newest => destroy_all(pool, (OLDEST..end).rev(), tally),
        Calls::Scattered => {
            let numbers = scattered().into_iter().filter(|number| *number < end);
            destroy_all(pool, numbers, tally);
        }
    }
}

pub fn run_pool(calls: Calls, history: History, blocks: u32, rounds: u32) -> io::Result<()> {
    let rows = if calls == Calls::Any { 8 } else { 256 };
    let mut lots = Lots::new();
    let mut tally = Tally::default();
    for _ in 0..rounds {
        let mut pool = match Pool::format(blocks, rows) {
            Ok(pool) => pool,
            Err(refusal) => {
                println!("refused, {}", refusal as u32);
                return Ok(());
            }
        };
        tally.mark()?;
        tally.mark()?;
        if calls != Calls::Any {
            grow(&mut pool, history, &mut lots, &mut tally);
        }
        tally.mark()?;
        perform(&mut pool, calls, history, &mut lots, &mut tally);
        tally.mark()?;
    }
    Ok(())
}

fn take(set: &mut impl Blocks, tally: &mut Tally) -> u32 {
    let answer = set.take();
    let changed = answer.map(|_| Changed { taken: 1, given: 0 });
    tally.change(changed.ok_or(Refusal::BlocksShort));
    answer.unwrap_or(0)
}

fn give(set: &mut impl Blocks, block: u32, tally: &mut Tally) {
    let changed = set.give(block).then_some(Changed { taken: 0, given: 1 });
    tally.change(changed.ok_or(Refusal::OutOfRange));
}

/// Answers the blocks that were handed out last, and what the calls came to.
pub fn run_blocks<B: Blocks>(
    thin: bool,
    blocks: u32,
    rounds: u32,
) -> io::Result<(Vec<u32>, Tally)> {
    let mut set = B::new(blocks);
    let mut lots = Lots::new();
    let mut tally = Tally::default();
    let mut held: Vec<u32> = (0..blocks).map(|_| take(&mut set, &mut tally)).collect();
    if thin {
        for block in held.iter().step_by(2) {
            give(&mut set, *block, &mut tally);
        }
    }
    for _ in 0..rounds {
        tally.mark()?;
        tally.mark()?;
        tally.mark()?;
        for _ in 0..10_000 {
            let place = 2 * lots.below(blocks / 2) as usize + 1;
            give(&mut set, held[place], &mut tally);
            held[place] = take(&mut set, &mut tally);
        }
        tally.mark()?;
    }
    Ok((held, tally))
}
