//! Random cases for the format of the vectors, with what this implementation does on them.

use crate::dragging::short_cycle;
use crate::finish::finish;
use crate::generate::{damage, list, list_with_dues, list_with_gaps, list_with_wiping};
use crate::generate::{miscount, misfit_of, spoil, wrong_rooms, Pace};
use crate::image::Image;
use crate::judge::cover;
use crate::layout::{PLAYERS, TRACERS};
use crate::made::{bare, fresh_image, gaps, holes, idle, loose, running, starved, uncovered_image, STARVED_CARDS};
use crate::map::{map_bytes, service_map};
use crate::random::Random;
use crate::record::{Record, RECORD_BYTES, SCAN};
use crate::steps::{batch, batch_by, Placing};
use crate::vectors::{untouched, BatchCase, Case, FinishCase, MapCase, UNTOUCHED_BYTE};
use crate::width::Width;

/// Sets the seed of the cycles apart from that of the other cases.
const CYCLES: u64 = 0xc1c1e5;

/// A case of `batch`, or once in four a finish alone.
pub fn case(random: &mut Random, number: u64) -> Case {
    if random.chance(25) {
        finish_case(random, number)
    } else {
        batch_case(random, number)
    }
}

/// Mostly one card, so that cases are short.
fn cards(random: &mut Random) -> usize {
    random.weighted(&[(16, 1), (4, 2), (1, 3)])
}

fn finish_case(random: &mut Random, number: u64) -> Case {
    let k = cards(random);
    let make = random.weighted(&[(5, uncovered_image as fn(&mut Random, usize) -> _), (2, loose), (3, running)]);
    let image = make(random, k);
    let mut left = image.clone();
    let value = finish(&mut left);
    let name = format!("{number} finish");
    Case::Finish(FinishCase { name, value, left, cover: cover(&image), image })
}

fn batch_case(random: &mut Random, number: u64) -> Case {
    let (what, image, steps, answers) = call(random);
    Case::Batch(batch_case_of(format!("{number} {what}"), image, steps, answers))
}

/// A call with what this implementation does on it.
pub(crate) fn batch_case_of<W: Width>(name: String, image: Vec<W>, steps: Vec<u8>, answers: usize) -> BatchCase<W> {
    by(Placing::Tightest, &BatchCase { name, image, steps, answers, result: 0, left: Vec::new(), given: Vec::new() })
}

/// The case with what this implementation does on it under that rule of placing.
pub fn by<W: Width>(placing: Placing, case: &BatchCase<W>) -> BatchCase<W> {
    let mut left = case.image.clone();
    let mut given = vec![untouched(); case.answers];
    let result = batch_by(placing, &mut left, &case.steps, &mut given);
    BatchCase { result, left, given, ..case.clone() }
}

/// The case by the lowest run, if it comes to other answers or another image so.
pub fn otherwise_by_lowest<W: Width>(case: &BatchCase<W>) -> Option<BatchCase<W>> {
    let [lowest, tightest] = [Placing::Lowest, Placing::Tightest].map(|placing| by(placing, case));
    (lowest != tightest).then_some(lowest)
}

/// What it is, the image, the step bytes and the number of answer words.
fn call(random: &mut Random) -> (&'static str, Vec<u16>, Vec<u8>, usize) {
    let what = random.weighted(&[
        (8, "fresh"),
        (12, "evolved"),
        (30, "made"),
        (6, "idle"),
        (12, "dues"),
        (14, "wiping"),
        (14, "tight"),
        (1, "starved"),
        (8, "spoiled"),
        (6, "miscounted"),
        (6, "loose"),
        (5, "misfit"),
        (3, "length"),
    ]);
    let mut image = image(random, what);
    // The list is drawn for the sound image, whatever happens to the image or the lengths then.
    let steps = steps(random, what, &mut image.clone());
    let words = steps.len() / RECORD_BYTES * 2;
    let (steps, answers) = if what == "misfit" { misfit_of::<u16>(random, &steps) } else { (steps, words) };
    match what {
        "spoiled" => spoil(random, &mut image),
        "miscounted" => miscount(random, &mut image),
        "length" => change_length(random, &mut image),
        _ => {}
    }
    (what, image, steps, answers)
}

fn image(random: &mut Random, what: &str) -> Vec<u16> {
    let k = cards(random);
    match what {
        "fresh" => fresh_image(k),
        "evolved" => evolved(random, k),
        "idle" => idle(random, k),
        "dues" => holes(random, k),
        "wiping" => bare(random, k),
        "tight" => gaps(random, k),
        "starved" => starved(random, STARVED_CARDS),
        "loose" => uncovered_image(random, k),
        _ => running(random, k),
    }
}

fn steps(random: &mut Random, what: &str, image: &mut [u16]) -> Vec<u8> {
    let count = random.from_to(1, 8);
    let mut pace = Pace { wild: 20, ..Pace::draw(random) };
    if what == "loose" {
        // A finish may leave links to freed objects where Cover fails: no list can be drawn past it.
        pace = Pace { wild: 0, finish: 0, ..pace };
    }
    match what {
        "dues" => list_with_dues(random, image, count, pace),
        "wiping" => list_with_wiping(random, image, 2 * count, pace),
        "tight" => list_with_gaps(Placing::Tightest, random, image, 2 * count, pace),
        "starved" => [scans(random, image), list(random, image, count, pace)].concat(),
        _ => list(random, image, count, pace),
    }
}

/// Some scans, which reach many objects at once.
fn scans(random: &mut Random, image: &mut [u16]) -> Vec<u8> {
    let mut steps = Vec::new();
    for _ in 0..random.from_to(1, 3) {
        let player = random.below(PLAYERS) as u16;
        steps.extend(Record::new(SCAN, random.below(TRACERS) as u8, player, 0, 0).to_bytes());
    }
    let mut answers = vec![0; steps.len() / RECORD_BYTES * 2];
    assert_eq!(batch(image, &steps, &mut answers), 0);
    steps
}

/// A fresh store after some steps.
pub fn evolved<W: Width>(random: &mut Random, k: usize) -> Vec<W> {
    let mut image = fresh_image(k);
    let count = random.from_to(10, 400);
    let pace = Pace::draw(random);
    list(random, &mut image, count, pace);
    image
}

pub(crate) fn change_length<W: Width>(random: &mut Random, image: &mut Vec<W>) {
    let (length, shortest) = (image.len(), W::length(1));
    let others = [0, 1, 264, 1383, 1384, shortest - 2, length - 1, length + 1, shortest - 1, shortest + 1];
    image.resize(random.pick(&others).unwrap_or(0), W::default());
}

/// Batches of a whole cycle each, on one card. They have a generator of their own: the other cases of a seed do not hang on them.
pub fn cycles(seed: u64, count: u64) -> impl Iterator<Item = BatchCase> {
    let mut random = Random::new(seed ^ CYCLES);
    (0..count).map(move |number| {
        let image = idle(&mut random, 1);
        let steps = short_cycle(&mut random, &image);
        let answers = steps.len() / RECORD_BYTES * 2;
        batch_case_of(format!("{number} cycle"), image, steps, answers)
    })
}

/// Calls of `service_map`. They have a generator of their own: the other cases of a seed do not hang on them.
pub fn maps(seed: u64, count: u64) -> impl Iterator<Item = MapCase> {
    let mut random = Random::new(!seed);
    (0..count).map(move |number| map_case(&mut random, number))
}

/// Four kinds in turn, so that a few cases show each of them.
fn map_case(random: &mut Random, number: u64) -> MapCase {
    let k = random.from_to(1, 2);
    let (what, image, room) = match number % 4 {
        0 => ("crossing", crossing(random), map_bytes(2)),
        1 => ("spoiled", damaged(random, k), map_bytes(k)),
        2 => misfit_of_a_map(random, k, number % 8 == 2),
        _ => ("made", for_a_map(random, k), map_bytes(k)),
    };
    let mut given = vec![UNTOUCHED_BYTE; room];
    let result = service_map(&image, &mut given);
    MapCase { name: format!("{number} {what}"), image, room, result, given }
}

fn for_a_map(random: &mut Random, k: usize) -> Vec<u16> {
    match random.below(8) {
        0 => fresh_image(k),
        1 | 2 => evolved(random, k),
        3 => idle(random, k),
        4 => bare(random, k),
        _ => running(random, k),
    }
}

/// Two cards in different states, one of them dirty and one taken; an object that runs over the first one's end, objects marked and not,
/// and a run.
fn crossing(random: &mut Random) -> Vec<u16> {
    loop {
        let words = running(random, 2);
        let image = Image::of(&words).expect("a fitting length");
        let is_over = |start: usize, size: usize| start < 64 && start + size > 64;
        let marked = image.starts().filter(|&g| image.is_marked(g)).count();
        if image.objects().any(|o| is_over(o.start, o.size))
            && (1..image.starts().count()).contains(&marked)
            && image.card(0) != image.card(1)
            && image.card(0) | image.card(1) == 3
            && image.first_run() != 0
        {
            return words;
        }
    }
}

fn damaged(random: &mut Random, k: usize) -> Vec<u16> {
    let mut image = for_a_map(random, k);
    damage(random, &mut image);
    image
}

/// An output that does not fit, of a damaged image: 1 comes before 2. Or any misfit.
fn misfit_of_a_map(random: &mut Random, k: usize, is_damaged: bool) -> (&'static str, Vec<u16>, usize) {
    let room = random.pick(&wrong_rooms(k)).expect("some room");
    if is_damaged {
        return ("misfit", damaged(random, k), room);
    }
    let mut image = for_a_map(random, k);
    if random.chance(50) {
        return ("misfit", image, room);
    }
    change_length(random, &mut image);
    ("length", image, map_bytes(k))
}
