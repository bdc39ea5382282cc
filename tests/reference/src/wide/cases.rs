//! Random cases of the wide store for the format of the vectors, with what this implementation does on them.

use std::ops::RangeInclusive;

use crate::cases::{batch_case_of, change_length, evolved};
use crate::generate::{list, list_with_gaps, list_with_wiping, misfit_of, of_kind, Pace};
use crate::made::{bare, fresh_image, gaps, running};
use crate::random::Random;
use crate::record::{BEGIN, NEW, READ, UNDIRTY, WRITE};
use crate::steps::Placing;
use crate::vectors::BatchCase;
use crate::wide::record::RECORD_BYTES;
use crate::wide::{Image, Layout, Record};
use crate::width::Places;

/// Sets the seed of these cases apart from that of the narrow ones, which do not hang on them.
const WIDE: u64 = 0x31de;

/// The kinds of cases come in turn, so that a few show each of them.
const KINDS: [&str; 9] =
    ["strays", "lifted players", "lifted tracers", "levels", "high half", "misfit", "made", "wiping", "tight"];

/// Cases of the wide store's `batch`.
pub fn cases(seed: u64, count: u64) -> impl Iterator<Item = BatchCase<u32>> {
    let mut random = Random::new(seed ^ WIDE);
    (0..count).map(move |number| case(&mut random, number))
}

/// Mostly on one card, so that cases are short.
fn case(random: &mut Random, number: u64) -> BatchCase<u32> {
    let what = KINDS[number as usize % KINDS.len()];
    let k = random.weighted(&[(9, 1), (1, 2)]);
    let (mut image, steps) = call(random, what, k);
    let words = steps.len() / RECORD_BYTES * 2;
    let (steps, answers) =
        if what == "misfit" && random.chance(50) { misfit_of::<u32>(random, &steps) } else { (steps, words) };
    match what {
        "high half" => spoil_high_half(random, &mut image),
        "misfit" if answers == words => change_length(random, &mut image),
        _ => {}
    }
    batch_case_of(format!("{number} {what}"), image, steps, answers)
}

/// An undamaged image and steps for it.
fn call(random: &mut Random, what: &str, k: usize) -> (Vec<u32>, Vec<u8>) {
    let pace = Pace { wild: 20, ..Pace::draw(random) };
    match what {
        "strays" => for_each_kind(random, NEW..=UNDIRTY, with_stray_bytes),
        "lifted players" => for_each_kind(random, NEW..=WRITE, with_lifted_fields),
        "lifted tracers" => for_each_kind(random, BEGIN..=UNDIRTY, with_lifted_fields),
        "levels" => (fresh_image(k), levels(random)),
        "tight" => {
            let image = gaps(random, k);
            let steps = list_with_gaps(Placing::Tightest, random, &mut image.clone(), 14, pace);
            (image, steps)
        }
        "wiping" => {
            let image = bare(random, k);
            let steps = list_with_wiping(random, &mut image.clone(), 14, pace);
            (image, steps)
        }
        _ => {
            let image = if what == "misfit" { evolved(random, k) } else { running(random, k) };
            let steps = list(random, &mut image.clone(), 12, pace);
            (image, steps)
        }
    }
}

/// An image in a cycle on which a record of each of these kinds may be accepted, and what becomes of these records.
fn for_each_kind(
    random: &mut Random,
    kinds: RangeInclusive<u8>,
    altered: fn(&mut Random, Record) -> Vec<Record>,
) -> (Vec<u32>, Vec<u8>) {
    loop {
        let image = running(random, 1);
        let drawn: Option<Vec<Record>> = kinds.clone().map(|kind| often(random, &image, kind)).collect();
        if let Some(records) = drawn {
            let steps = records.into_iter().flat_map(|record| altered(random, record)).flat_map(Record::to_bytes);
            return (image.clone(), steps.collect());
        }
    }
}

fn often(random: &mut Random, image: &[u32], kind: u8) -> Option<Record> {
    let image = Image::of(image).expect("a fitting length");
    (0..20).find_map(|_| of_kind(random, image, kind))
}

/// The record with either of its zero bytes set, which is refused.
fn with_stray_bytes(random: &mut Random, record: Record) -> Vec<Record> {
    let byte = random.weighted(&[(2, 1), (1, 128), (1, 255)]);
    [[byte, 0], [0, byte]].map(|zeros| Record { zeros, ..record }).to_vec()
}

/// The record with each of its fields lifted by a multiple of 65,536. Of those that the kind names, most are refused.
fn with_lifted_fields(random: &mut Random, record: Record) -> Vec<Record> {
    let lift = random.weighted(&[(3, 1 << 16), (1, 1 << 20), (1, 1 << 31)]);
    let Record { a, b, c, .. } = record;
    let lifted = [[a | lift, b, c], [a, b | lift, c], [a, b, c | lift]];
    lifted.map(|[a, b, c]| Record { a, b, c, ..record }).to_vec()
}

/// Level words of 32 bits, written and read.
fn levels(random: &mut Random) -> Vec<u8> {
    let mut records = vec![Record::new(NEW, 0, 3, 2, 1)];
    for level in 0..5 {
        let any = random.bits() as u32;
        let value = random.weighted(&[(1, 1 << 16), (1, u32::MAX), (1, 0xffff), (3, any)]);
        records.push(Record::new(WRITE, 0, 3, level, value));
        records.push(Record::new(READ, 0, 3, level, 0));
    }
    records.into_iter().flat_map(Record::to_bytes).collect()
}

/// Alters the high half of a word behind the heap and the bits, where no number is above 65,536 in a store of few cards: it is damaged.
fn spoil_high_half(random: &mut Random, image: &mut [u32]) {
    let layout = Layout::of_length(image.len()).expect("a fitting length");
    let at = random.from_to(layout.card(0), image.len() - 1);
    image[at] ^= 1 << random.from_to(17, 31);
}
