//! Images and lists for the timings, made by the second implementation.

use reference::generate::{list, Pace};
use reference::image::{Image, StoreOf};
use reference::layout::{card_of, LARGEST_OBJECT, REGISTERS};
use reference::made::fresh_image;
use reference::random::Random;
use reference::record::*;
use reference::steps::step;
use reference::width::Width;

pub const BEGIN: [u8; 8] = [9, 0, 0, 0, 0, 0, 0, 0];
pub const FINISH: [u8; 8] = [13, 0, 0, 0, 0, 0, 0, 0];

/// The image that some steps leave.
pub fn after<W: Width>(image: &[W], steps: &[u8]) -> Vec<W> {
    let mut image = image.to_vec();
    let mut answers = vec![W::default(); steps.len() / W::RECORD_BYTES * 2];
    assert_eq!(reference::batch(&mut image, steps, &mut answers), 0);
    image
}

/// A store filled with objects of 16 granules with 8 links each, no cycle, every one in a chain from a register.
pub fn compact<W: Width>(k: usize) -> Vec<W> {
    chain(k, 16, 8)
}

/// A store filled with cues of 4 granules with 2 links each, all in one chain from a register.
pub fn compact_show<W: Width>(k: usize) -> Vec<W> {
    chain(k, 4, 2)
}

/// Objects of `size` granules and `links` links until there is no more room: each new one is linked from the one before, and
/// every fourth is let go.
fn chain<W: Width>(k: usize, size: usize, links: usize) -> Vec<W> {
    let mut steps = Vec::new();
    let mut add = |kind, a, b, c| steps.extend(RecordOf::<W>::of(kind, 0, a, b, c).to_bytes());
    add(1, 0, size, links);
    add(5, 0, 0, 1);
    for n in 1..64 * k / size - 1 {
        // r1 holds the last object of the chain, r2 the new one.
        add(1, 2, size, links);
        if n % 4 != 0 {
            add(3, 1, 0, 2);
            add(4, 0, 0, 0);
            add(5, 2, 0, 1);
        }
    }
    add(6, 2, 0, 0);
    after(&fresh_image(k), &steps)
}

/// The tracers' steps that are accepted from a begin to the end of marking: every player scanned, then traced, and cleaned where
/// nothing is left to trace, until neither finds anything to do.
pub fn marking<W: Width>(begun: &[W]) -> Vec<u8> {
    let mut image = begun.to_vec();
    let mut store = StoreOf::of(&mut image).expect("a fitting length");
    let mut accepted = Vec::new();
    let mut does = |record: RecordOf<W>| {
        let is_accepted = step(&mut store, record) == (W::default(), W::default());
        accepted.extend(record.to_bytes().iter().filter(|_| is_accepted));
        is_accepted
    };
    (0..16).for_each(|player| assert!(does(RecordOf::of(SCAN, 0, player, 0, 0))));
    while does(RecordOf::of(TRACE, 0, 0, 0, 0)) || does(RecordOf::of(CLEAN, 0, 0, 0, 0)) {}
    accepted
}

/// The middle of a cycle: one player scanned and a tracer's steps run, as many as there are cues.
pub fn half_marked<W: Width>(k: usize) -> Vec<W> {
    let show = compact_show(k);
    let record = |kind| RecordOf::<W>::of(kind, 0, 0, 0, 0).to_bytes();
    let steps = [record(9), record(10), record(11).repeat(16 * k)].concat();
    after(&show, &steps)
}

/// A store half full and a list of a show: players' steps mostly, tracing between.
pub fn show(k: usize, count: usize) -> (Vec<u16>, Vec<u8>) {
    let mut random = Random::new(11);
    let image = compact_show(k);
    let pace = Pace { wild: 1, finish: 1, tracers: 30, undirty: 0 };
    let steps = list(&mut random, &mut image.clone(), count, pace);
    (image, steps)
}

/// A cycle in which nothing is marked yet: each register of player 0 holds a cue with a link, all of them on cards of their own.
pub fn open_cues(k: usize) -> Vec<u16> {
    let size = (64 * k / REGISTERS - 1).min(LARGEST_OBJECT);
    let news = (0..REGISTERS).flat_map(|r| Record::new(NEW, 0, r as u16, size as u16, 1).to_bytes());
    after(&fresh_image(k), &news.chain(BEGIN).collect::<Vec<u8>>())
}

/// So many stores into these cues, each with its barrier and, if wanted, an undirty of the card behind it.
pub fn filling(image: &[u16], stores: usize, is_wiped: bool) -> Vec<u8> {
    let cues: Vec<usize> = Image::of(image).expect("a fitting length").registers_of(0).collect();
    let mut steps = Vec::new();
    for (register, &cue) in cues.iter().enumerate().cycle().take(stores) {
        let register = register as u16;
        steps.extend(Record::new(STORE, 0, register, 0, register).to_bytes());
        steps.extend(Record::new(BARRIER, 0, 0, 0, 0).to_bytes());
        if is_wiped {
            steps.extend(Record::new(UNDIRTY, 0, card_of(cue) as u16, 0, 0).to_bytes());
        }
    }
    accepted_values(image, &steps);
    steps
}

/// The values of steps, none of which is refused.
pub fn accepted_values(image: &[u16], steps: &[u8]) -> Vec<u16> {
    let mut answers = vec![0; steps.len() / 4];
    assert_eq!(reference::batch(&mut image.to_vec(), steps, &mut answers), 0);
    assert!(answers.chunks(2).all(|answer| answer[0] == 0), "a step that is refused");
    answers.chunks(2).map(|answer| answer[1]).collect()
}

/// A playback loop on a cue in register 0 with a link and a level word, so many steps, with that record behind each. Now and then
/// there is a new of eight granules.
pub fn playback(image: &[u16], count: usize, behind: Record) -> Vec<u8> {
    let round = [
        Record::new(READ, 0, 0, 0, 0),
        Record::new(WRITE, 0, 0, 0, 7),
        Record::new(LOAD, 0, 1, 0, 0),
        Record::new(STORE, 0, 0, 0, 1),
        Record::new(BARRIER, 0, 0, 0, 0),
        Record::new(HAND, 0, 0, 1, 0),
        Record::new(DROP, 0, 1, 0, 0),
    ];
    let rounds = [&round[..], &round, &round, &[Record::new(NEW, 0, 2, 8, 1)]].concat();
    let steps: Vec<u8> =
        rounds.iter().cycle().take(count).flat_map(|step| [*step, behind]).flat_map(Record::to_bytes).collect();
    accepted_values(image, &steps);
    steps
}
