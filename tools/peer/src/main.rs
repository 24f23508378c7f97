//! The workloads of crates/bench on a pool and on allocators in plain Rust: `peer NAME BLOCKS ROUNDS`.

mod allocators;
mod pool;
mod tally;
mod work;

use allocators::{Flags, Free};
use std::{env, io};
use work::{Calls, History, run_blocks, run_pool};

fn run(name: &str, blocks: u32, rounds: u32) -> io::Result<()> {
    let (calls, head) = match name {
        "any" => (Calls::Any, 1),
        "edits" => (Calls::Edits, 1),
        "edits-above" => (Calls::Edits, 999),
        "figures" => (Calls::Figures, 1),
        "oldest" => (Calls::Oldest, 1),
        "newest" => (Calls::Newest, 1),
        "newest-above" => (Calls::Newest, 999),
        "scattered" => (Calls::Scattered, 1),
        _ => return run_set(name, blocks, rounds),
    };
    run_pool(calls, History::on(blocks, head), blocks, rounds)
}

fn run_set(name: &str, blocks: u32, rounds: u32) -> io::Result<()> {
    let thin = name.starts_with("thin-");
    if name.ends_with("-ranges") {
        return run_blocks::<Free>(thin, blocks, rounds).map(|_| ());
    }
    let (held, mut tally) = run_blocks::<Flags>(thin, blocks, rounds)?;
    held.iter().for_each(|block| tally.figure(*block));
    tally.mark()
}

const NAMES: [&str; 12] = [
    "any",
    "edits",
    "edits-above",
    "figures",
    "oldest",
    "newest",
    "newest-above",
    "scattered",
    "full-bits",
    "thin-bits",
    "full-ranges",
    "thin-ranges",
];

fn main() -> io::Result<()> {
    let mut words = env::args().skip(1);
    let asked = words.next();
    let blocks = words
        .next()
        .and_then(|word| word.parse().ok())
        .unwrap_or(1_024);
    let rounds = words.next().and_then(|word| word.parse().ok()).unwrap_or(1);
    for name in NAMES {
        if asked.as_ref().is_none_or(|word| word == name) {
            println!("{name}");
            run(name, blocks, rounds)?;
        }
    }
    Ok(())
}
