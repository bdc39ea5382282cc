//! `wide_fresh`, `wide_judge` and `wide_batch` of the proved library against the second implementation of the wide store, memory for memory.

use crate::judge::image;
use library::compared::{same_fresh, same_of, Seen, Verdicts};
use reference::generate::{batches_of, list, list_with_dues, list_with_gaps, list_with_wiping, miscount, spoil, Pace};
use reference::made::{bare, fresh_image, gaps, holes, idle, running, spread, starved, STARVED_CARDS};
use reference::random::Random;
use reference::record::{BEGIN, FINISH, NEW};
use reference::vectors::{parse_wide, untouched, BatchCase};
use reference::wide::cases::cases;
use reference::wide::record::RECORD_BYTES;
use reference::wide::twins::twins;
use reference::wide::{length, Layout, Record};
use reference::width::Places;
use reference::{whole_list, Counts, Placing};

type Draw = fn(&mut Random, &mut [u32], usize, Pace) -> Vec<u8>;

/// A random list of about `count` steps from the image, in random batches, misfits between.
fn run(random: &mut Random, mut image: Vec<u32>, count: usize, draw: Draw, seen: &mut Seen) {
    let pace = Pace::draw(random);
    let steps = draw(random, &mut image.clone(), count, pace);
    for (steps, answer_words) in batches_of::<u32>(random, &steps) {
        same_of(&mut image, &steps, answer_words, seen);
    }
}

fn into_gaps(random: &mut Random, image: &mut [u32], count: usize, pace: Pace) -> Vec<u8> {
    list_with_gaps(Placing::Tightest, random, image, count, pace)
}

fn assert_worth_running(seen: &Seen, steps: usize) {
    println!("{seen:?}");
    assert!(seen.steps >= steps, "{} steps", seen.steps);
    assert!(seen.numbers[0] * 100 >= seen.steps * 55);
    assert!(seen.every_kind(), "a kind was never accepted");
    assert!(seen.every_refusal() && seen.every_refusal_of_undirty(), "a number was never given");
    assert!(seen.unknown_kinds > 0 && seen.refused > 0);
}

#[test]
fn from_fresh_stores() {
    let mut random = Random::new(501);
    let mut seen = Seen::default();
    for round in 0..60 {
        run(&mut random, fresh_image(1 + round % 12), 4_000, list, &mut seen);
    }
    assert_worth_running(&seen, 240_000);
}

#[test]
fn from_images_in_a_cycle_and_with_none() {
    let mut random = Random::new(502);
    let mut seen = Seen::default();
    for round in 0..600 {
        let make = if round % 4 == 0 { idle } else { running };
        let image = make(&mut random, 1 + round % 12);
        run(&mut random, image, 400, list, &mut seen);
    }
    assert_worth_running(&seen, 240_000);
}

/// Runs of about 8 granules with a due behind every step; cards wiped while players fill the store; gaps of many lengths.
#[test]
fn dues_wiping_and_gaps() {
    let mut random = Random::new(503);
    let mut seen = Seen::default();
    for round in 0..450 {
        let k = 1 + round % 12;
        let (image, draw): (Vec<u32>, Draw) = match round % 3 {
            0 => (holes(&mut random, k), list_with_dues),
            1 => (bare(&mut random, k), list_with_wiping),
            _ => (gaps(&mut random, k), into_gaps),
        };
        run(&mut random, image, 200, draw, &mut seen);
    }
    assert_worth_running(&seen, 90_000);
    assert!(seen.due > 2_000 && seen.accepted[14] - seen.due > 2_000 && seen.undirty_numbers[0] > 2_000, "{seen:?}");
}

#[test]
fn from_images_without_packets() {
    let mut random = Random::new(504);
    let mut seen = Seen::default();
    for _ in 0..60 {
        let k = random.from_to(STARVED_CARDS, STARVED_CARDS + 8);
        let mut image: Vec<u32> = starved(&mut random, k);
        let pace = Pace { wild: 3, finish: 1, tracers: 40, undirty: 5 };
        // One step a batch: what a step finds is seen from the images before and after.
        for step in list(&mut random, &mut image.clone(), 150, pace).chunks(RECORD_BYTES) {
            same_of(&mut image, step, 2, &mut seen);
        }
    }
    assert!(seen.without_packet > 80, "{} steps found no packet", seen.without_packet);
}

/// Stores with more cards than a narrow one has, full and with a few objects far apart, whose granules 15 or 16 bits do not hold.
#[test]
fn from_large_images() {
    let mut random = Random::new(505);
    let mut seen = Seen::default();
    for k in [513, 600, 1_025, 1_100, 4_400] {
        for _ in 0..6 {
            let image = spread(&mut random, k);
            run(&mut random, image, 250, list, &mut seen);
        }
    }
    for k in [513, 600] {
        let image = running(&mut random, k);
        run(&mut random, image, 400, list, &mut seen);
        let image = idle(&mut random, k);
        run(&mut random, image, 400, list, &mut seen);
    }
    println!("{seen:?}");
    assert!(seen.steps >= 9_000 && seen.every_kind() && seen.every_refusal_of_undirty(), "{seen:?}");
}

#[test]
fn from_the_largest_images() {
    let mut random = Random::new(506);
    let mut seen = Seen::default();
    for _ in 0..3 {
        let mut image: Vec<u32> = spread(&mut random, 65_536);
        let pace = Pace { finish: 1, ..Pace::draw(&mut random) };
        let steps = list(&mut random, &mut image.clone(), 600, pace);
        for part in steps.chunks(200 * RECORD_BYTES) {
            same_of(&mut image, part, part.len() / RECORD_BYTES * 2, &mut seen);
        }
        let cycle = [Record::new(BEGIN, 0, 0, 0, 0), Record::new(FINISH, 0, 0, 0, 0)].map(Record::to_bytes).concat();
        same_of(&mut image, &cycle, 4, &mut seen);
    }
    println!("{seen:?}");
    assert!(seen.steps == 1_806 && seen.numbers[0] > 1_000, "{seen:?}");
}

/// Drawn cases, in which records of every kind have a zero byte set or a field above 65,535, and words a high half altered.
#[test]
fn drawn_cases() {
    let mut seen = Seen::default();
    let mut refused = [0; 3];
    for case in cases(507, 1_800) {
        same_of(&mut case.image.clone(), &case.steps, case.answers, &mut seen);
        refused[usize::from(case.result)] += 1;
    }
    println!("{seen:?}");
    assert!(refused[1] == 200 && refused[2] == 200 && seen.refused == 400, "{refused:?}");
    assert!(seen.every_refusal() && seen.numbers[3] > 6_000 && seen.numbers[4] > 1_000, "{seen:?}");
}

fn assert_as_given(case: &BatchCase<u32>) {
    let (mut image, mut answers) = (case.image.clone(), vec![untouched(); case.answers]);
    let result = library::wide::batch(&mut image, &case.steps, &mut answers);
    assert_eq!((result, answers), (case.result, case.given.clone()), "case {}", case.name);
    assert!(image == case.left, "image of case {}", case.name);
}

#[test]
fn outside_vectors() {
    let cases = parse_wide(include_str!("../../vectors/document_02/09-ix.txt")).unwrap();
    assert_eq!(cases.len(), 70);
    cases.iter().for_each(assert_as_given);
}

/// Records of random bytes; each kind alone with random fields beside, and with zero bytes that are 0.
#[test]
fn random_records() {
    let mut random = Random::new(508);
    let mut seen = Seen::default();
    for round in 0..200 {
        let mut image: Vec<u32> = if round % 2 == 0 { running(&mut random, 2) } else { idle(&mut random, 2) };
        let mut steps: Vec<u8> = (0..100 * RECORD_BYTES).map(|_| random.word() as u8).collect();
        for (n, record) in steps.chunks_mut(RECORD_BYTES).enumerate() {
            if n < 80 {
                record[0] = random.from_to(1, 15) as u8;
            }
            if n < 60 {
                record[2..4].fill(0);
            }
        }
        same_of(&mut image, &steps, 200, &mut seen);
    }
    assert!(seen.numbers[3] > 10_000 && seen.numbers[4] > 2_000, "{seen:?}");
}

/// Of a step's bytes, of the answers and of the image, on an image that is undamaged or not.
#[test]
fn misfits() {
    let mut seen = Seen::default();
    let new = Record::new(NEW, 0, 0, 1, 1).to_bytes();
    for damaged in [false, true] {
        for bytes in (0..=16).chain([17, 24, 31]) {
            for words in 0..=5 {
                let steps = [&new[..], &new[..]].concat();
                let mut image: Vec<u32> = fresh_image(1);
                image[0] = u32::from(damaged);
                same_of(&mut image, &steps[..bytes], words, &mut seen);
            }
        }
    }
    assert_eq!((seen.refused, seen.steps), (2 * 20 * 6 - 2, 1));
    for words in [0, 1, 1_383, 1_384, 1_645, 1_647, 1_650] {
        same_of(&mut vec![0u32; words], &new, 2, &mut seen);
    }
    assert_eq!((seen.refused, seen.steps), (2 * 20 * 6 + 5, 1));
}

#[test]
fn judged_images() {
    let mut random = Random::new(509);
    let mut verdicts = Verdicts::default();
    for round in 0..12_000 {
        let mut words: Vec<u32> = image(&mut random, 1 + round % 4);
        verdicts.same(&words);
        let alter = if round % 5 == 0 { miscount } else { spoil };
        alter(&mut random, &mut words);
        verdicts.same(&words);
    }
    println!("{verdicts:?}");
    assert!(verdicts.of[0] > 6_000 && verdicts.of[2] > 6_000, "{verdicts:?}");
}

/// Each word with others in its place, some of which differ in the high half alone.
#[test]
fn one_word_altered_at_every_place() {
    let mut random = Random::new(510);
    let mut verdicts = Verdicts::default();
    for round in 0..10 {
        let words: Vec<u32> = image(&mut random, 1 + round % 2);
        for place in 0..words.len() {
            let was = words[place];
            let (any_bit, high_bit) = (1 << random.below(32), 1 << random.from_to(16, 31));
            let others = [0, was.wrapping_add(1), was.wrapping_sub(1), was ^ any_bit, was ^ high_bit, was ^ 1 << 16];
            for other in others {
                let mut altered = words.clone();
                altered[place] = other;
                verdicts.same(&altered);
            }
        }
    }
    println!("{verdicts:?}");
    assert!(verdicts.sum() > 100_000 && verdicts.of[0] > 1_000 && verdicts.of[2] > 10_000, "{verdicts:?}");
}

/// A batch refuses a damaged image and leaves it and the answers alone.
#[test]
fn damaged_images() {
    let mut random = Random::new(511);
    let mut seen = Seen::default();
    for round in 0..8_000 {
        let mut image: Vec<u32> = running(&mut random, 1 + round % 3);
        let pace = Pace::draw(&mut random);
        let steps = list(&mut random, &mut image.clone(), 3, pace);
        let alter = if round % 4 == 0 { miscount } else { spoil };
        alter(&mut random, &mut image);
        // A word that is free to change leaves an image in which the list may run.
        if reference::judge(&image) == 2 {
            same_of(&mut image, &steps, 6, &mut seen);
        }
    }
    assert!(seen.refused > 3_000 && seen.steps == 0, "{seen:?}");
}

/// Granules equal in their low 15 or 16 bits: entered or not, in hand or not, and so on.
#[test]
fn numbers_that_few_bits_do_not_tell_apart() {
    let mut verdicts = Verdicts::default();
    for twins in twins() {
        let verdict = verdicts.same(&twins.image);
        assert_eq!(verdict, if twins.line.is_some() { 2 } else { 0 }, "{}", twins.what);
    }
    assert!(verdicts.of[0] > 30 && verdicts.of[2] > 80, "{verdicts:?}");
}

#[test]
fn judged_large_images() {
    let mut random = Random::new(512);
    let mut verdicts = Verdicts::default();
    for k in [512, 513, 600, 1_100] {
        for make in [running, idle, spread, bare] {
            let mut words: Vec<u32> = make(&mut random, k);
            assert_eq!(verdicts.same(&words), 0);
            for _ in 0..6 {
                spoil(&mut random, &mut words);
                verdicts.same(&words);
            }
        }
    }
    for make in [idle, spread, |_: &mut Random, k| fresh_image(k)] {
        let mut words: Vec<u32> = make(&mut random, 65_536);
        assert_eq!(verdicts.same(&words), 0);
        let layout = Layout { cards: 65_536 };
        for at in [layout.card(65_535), layout.count(65_535), layout.mark_bits() - 1, layout.card(0) - 1] {
            words[at] ^= 1 << 31;
            assert_eq!(verdicts.same(&words), 2, "word {at}");
            words[at] ^= 1 << 31;
        }
    }
    println!("{verdicts:?}");
}

/// Lengths and words of any content: all to 3,000, and those of many stores and about them, the largest and one more among them.
#[test]
fn every_length() {
    let mut random = Random::new(513);
    let mut verdicts = Verdicts::default();
    let cards = (1..=64).chain([511, 512, 513, 514, 600, 1_024, 1_025, 65_535, 65_536, 65_537]);
    let near = cards.flat_map(|k| [length(k) - 1, length(k), length(k) + 1, length(k) + 4]);
    let mut made = 0;
    for words in (0..=3_000).chain(near) {
        let mut image = vec![random.bits() as u32; words];
        verdicts.same(&image);
        if same_fresh(&image) == 0 {
            made += 1;
            library::wide::fresh(&mut image);
            assert_eq!(verdicts.same(&image), 0);
        }
    }
    println!("{verdicts:?}, {made} made");
    // 6 of the lengths that fit are to 3,000, and 73 among the others.
    assert_eq!((verdicts.of[0], made), (79, 79));
    assert!(verdicts.of[2] >= 70 && verdicts.of[1] > 3_000);
}

/// Demand 3 on the library's own answers.
#[test]
fn whole_lists() {
    let mut random = Random::new(514);
    let mut counts = Counts::default();
    for round in 0..66 {
        let k = if round < 60 { 1 + round % 12 } else { 513 + 200 * (round - 60) };
        let image: Vec<u32> = match round % 3 {
            _ if round >= 60 => spread(&mut random, k),
            0 => fresh_image(k),
            1 => running(&mut random, k),
            _ => bare(&mut random, k),
        };
        let pace = Pace::draw(&mut random);
        let steps = list(&mut random, &mut image.clone(), if round < 60 { 500 } else { 60 }, pace);
        let batches = batches_of::<u32>(&mut random, &steps);
        counts.add(&whole_list(&image, &batches, library::wide::batch).unwrap());
    }
    println!("{counts:?}");
    assert!((3..=11).all(|number| counts.numbers[number] > 0) && counts.unknown_kinds > 0);
    assert!((1..=15).all(|kind| counts.accepted[kind] > 0), "a kind was never accepted");
    assert!(counts.finishes_that_find > 50 && counts.refused_batches > 0 && counts.garbage_freed > 100);
}
