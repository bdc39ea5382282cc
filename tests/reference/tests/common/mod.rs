//! Small lists of steps by hand, and drawn cases.

#![allow(dead_code)]

pub mod altered;
pub mod misread;

use reference::batch;
use reference::cases::{case, cycles, maps};
use reference::made::fresh_image;
use reference::random::Random;
use reference::reports::reports;
use reference::vectors::{untouched, BatchCase, Case, MapCase, ReportCase};
use reference::wide;
use reference::width::Width;

pub use reference::record::*;
pub use reference::Record;

pub fn step(kind: u8, who: u8, a: u16, b: u16, c: u16) -> Record {
    Record::new(kind, who, a, b, c)
}

pub fn new(player: u8, register: u16, size: u16, links: u16) -> Record {
    step(NEW, player, register, size, links)
}

pub fn load(player: u8, into: u16, from: u16, link: u16) -> Record {
    step(LOAD, player, into, from, link)
}

pub fn store(player: u8, into: u16, link: u16, from: u16) -> Record {
    step(STORE, player, into, link, from)
}

pub fn barrier(player: u8) -> Record {
    step(BARRIER, player, 0, 0, 0)
}

pub fn hand(player: u8, own: u16, to: u16, register: u16) -> Record {
    step(HAND, player, own, to, register)
}

pub fn drop(player: u8, register: u16) -> Record {
    step(DROP, player, register, 0, 0)
}

pub fn begin() -> Record {
    step(BEGIN, 0, 0, 0, 0)
}

pub fn scan(tracer: u8, player: u16) -> Record {
    step(SCAN, tracer, player, 0, 0)
}

pub fn trace(tracer: u8) -> Record {
    step(TRACE, tracer, 0, 0, 0)
}

pub fn clean(tracer: u8) -> Record {
    step(CLEAN, tracer, 0, 0, 0)
}

pub fn finish() -> Record {
    step(FINISH, 0, 0, 0, 0)
}

pub fn undirty(card: u16) -> Record {
    step(UNDIRTY, 0, card, 0, 0)
}

pub fn bytes<W: Width>(records: &[RecordOf<W>]) -> Vec<u8> {
    records.iter().flat_map(|r| r.to_bytes()).collect()
}

/// Runs a list in one accepted batch and gives the answers as number and value.
pub fn run<W: Width>(image: &mut [W], records: &[RecordOf<W>]) -> Vec<(W, W)> {
    let mut answers = vec![untouched(); 2 * records.len()];
    assert_eq!(batch(image, &bytes(records), &mut answers), 0);
    answers.chunks(2).map(|answer| (answer[0], answer[1])).collect()
}

/// The answers of a list on a fresh store of one card.
pub fn on_one_card(records: &[Record]) -> Vec<(u16, u16)> {
    run(&mut fresh_image(1), records)
}

/// The answer of the last step of a list, all others of which are accepted.
pub fn last(records: &[Record]) -> (u16, u16) {
    let answers = on_one_card(records);
    let (last, others) = answers.split_last().expect("a list that is not empty");
    assert!(others.iter().all(|(number, _)| *number == 0), "{answers:?}");
    *last
}

/// The cases that `draw` prints.
pub fn draw(seed: u64, count: u64) -> Vec<Case> {
    let mut random = Random::new(seed);
    (0..count).map(|number| case(&mut random, number)).collect()
}

pub fn batch_cases(cases: &[Case]) -> Vec<&BatchCase> {
    let mut batches = Vec::new();
    for case in cases {
        if let Case::Batch(batch) = case {
            batches.push(batch);
        }
    }
    batches
}

/// The seed and the count in `tests/run`, by which `tests/definitions` draws.
fn seed_and_count() -> (u64, u64) {
    let words = include_str!("../../../run").lines().find_map(|line| line.strip_prefix("./definitions "));
    let (seed, count) = words.and_then(|words| words.split_once(' ')).expect("a seed and a count");
    (seed.parse().unwrap(), count.parse().unwrap())
}

/// The cases that the gate has the checker compute, in files as `tests/definitions` draws them.
pub fn cases_of_the_gate() -> Vec<Case> {
    let (seed, count) = seed_and_count();
    gate_cases(seed, count)
}

/// The whole cycles that it computes, one for eight of these cases.
pub fn cycles_of_the_gate() -> Vec<BatchCase> {
    let (seed, count) = seed_and_count();
    in_files(10, seed, count.div_ceil(8), cycles)
}

/// The maps that it computes, one for four of these cases.
pub fn maps_of_the_gate() -> Vec<MapCase> {
    let (seed, count) = seed_and_count();
    in_files(10, seed, count.div_ceil(4), maps)
}

/// The reports that it computes, two for each of these cases.
pub fn reports_of_the_gate() -> Vec<ReportCase> {
    let (seed, count) = seed_and_count();
    in_files(32, seed, 2 * count, reports)
}

/// The batches of the wide store that it computes, one for two of these cases.
pub fn wide_cases_of_the_gate() -> Vec<BatchCase<u32>> {
    let (seed, count) = seed_and_count();
    in_files(10, seed, count.div_ceil(2), wide::cases::cases)
}

pub fn gate_cases(seed: u64, count: u64) -> Vec<Case> {
    in_files(10, seed, count, draw)
}

/// So many at most in a file, and each file from a seed of its own.
fn in_files<T, I: IntoIterator<Item = T>>(most: u64, seed: u64, count: u64, draw: impl Fn(u64, u64) -> I) -> Vec<T> {
    let files = (0..count).step_by(most as usize);
    files.flat_map(|from| draw(seed + from, most.min(count - from))).collect()
}
