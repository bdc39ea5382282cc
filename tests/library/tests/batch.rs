//! `batch` of the proved library against the second implementation, memory for memory.

use library::compared::{same, Seen};
use reference::cases::{by, otherwise_by_lowest};
use reference::generate::{batches, list, list_with_dues, list_with_wiping, miscount, spoil, Pace};
use reference::image::Store;
use reference::made::{bare, fresh_image, holes, idle, running, starved, STARVED_CARDS};
use reference::random::Random;
use reference::record::{Record, RECORD_BYTES, UNDIRTY};
use reference::vectors::{parse_batches, parse_cycles, parse_older, parse_older_batches, BatchCase, Case, UNTOUCHED};
use reference::work::work_in;
use reference::{whole_list, Counts, Placing};

/// A random list of about `count` steps from the image, in random batches, misfits between.
fn run(random: &mut Random, image: Vec<u16>, count: usize, seen: &mut Seen) {
    run_drawn(random, image, count, list, seen);
}

/// The same with another way to draw the list.
fn run_drawn(random: &mut Random, mut image: Vec<u16>, count: usize, draw: Draw, seen: &mut Seen) {
    let pace = Pace::draw(random);
    let steps = draw(random, &mut image.clone(), count, pace);
    for (steps, answer_words) in batches(random, &steps) {
        same(&mut image, &steps, answer_words, seen);
    }
}

type Draw = fn(&mut Random, &mut [u16], usize, Pace) -> Vec<u8>;

fn assert_worth_running(seen: &Seen, steps: usize) {
    println!("{seen:?}");
    assert!(seen.steps >= steps, "{} steps", seen.steps);
    assert!(seen.numbers[0] * 100 >= seen.steps * 60);
    assert!(seen.every_kind(), "a kind was never accepted");
    assert!(seen.every_refusal() && seen.every_refusal_of_undirty(), "a number was never given");
    assert!(seen.unknown_kinds > 0 && seen.refused > 0);
}

#[test]
fn from_fresh_stores() {
    let mut random = Random::new(101);
    let mut seen = Seen::default();
    for round in 0..250 {
        run(&mut random, fresh_image(1 + round % 12), 4_000, &mut seen);
    }
    assert_worth_running(&seen, 1_000_000);
}

#[test]
fn from_images_in_a_cycle() {
    let mut random = Random::new(102);
    let mut seen = Seen::default();
    for round in 0..1_600 {
        let image = running(&mut random, 1 + round % 12);
        run(&mut random, image, 500, &mut seen);
    }
    assert_worth_running(&seen, 800_000);
}

#[test]
fn from_images_with_no_cycle() {
    let mut random = Random::new(103);
    let mut seen = Seen::default();
    for round in 0..250 {
        let image = idle(&mut random, 1 + round % 12);
        run(&mut random, image, 1_000, &mut seen);
    }
    assert_worth_running(&seen, 250_000);
}

#[test]
fn from_images_without_packets() {
    let mut random = Random::new(104);
    let mut seen = Seen::default();
    for _ in 0..150 {
        // The more cards, the more objects are left that no packet has room for.
        let k = random.from_to(STARVED_CARDS, STARVED_CARDS + 8);
        let mut image = starved(&mut random, k);
        let pace = Pace { wild: 3, finish: 1, tracers: 40, undirty: 5 };
        let steps = list(&mut random, &mut image.clone(), 150, pace);
        // One step a batch: what a step finds is seen from the images before and after.
        for step in steps.chunks(RECORD_BYTES) {
            same(&mut image, step, 2, &mut seen);
        }
    }
    println!("{seen:?}");
    assert!(seen.steps >= 20_000 && seen.every_refusal());
    assert!(seen.without_packet > 200, "{} steps found no packet", seen.without_packet);
}

#[test]
fn from_large_images() {
    let mut random = Random::new(105);
    let mut seen = Seen::default();
    for round in 0..8 {
        let image = match round % 3 {
            0 => running(&mut random, 512),
            1 => idle(&mut random, 512),
            _ => fresh_image(512),
        };
        let pace = Pace::draw(&mut random);
        let steps = list(&mut random, &mut image.clone(), 1_500, pace);
        let mut image = image;
        for part in steps.chunks(300 * RECORD_BYTES) {
            same(&mut image, part, part.len() / RECORD_BYTES * 2, &mut seen);
        }
    }
    println!("{seen:?}");
    assert!(seen.steps == 12_000 && seen.every_refusal());
    assert!(seen.every_kind(), "a kind was never accepted");
}

/// Runs of about 8 granules, and a due behind every step that may take from them, or join them.
#[test]
fn with_dues_between() {
    let mut random = Random::new(109);
    let mut seen = Seen::default();
    for round in 0..800 {
        let image = holes(&mut random, 1 + round % 6);
        run_drawn(&mut random, image, 150, list_with_dues, &mut seen);
    }
    assert_worth_running(&seen, 240_000);
    assert!(seen.accepted[14] > 100_000 && seen.due > 20_000 && seen.accepted[14] - seen.due > 20_000, "{seen:?}");
}

/// Players fill the store in a cycle while undirty steps run after them.
#[test]
fn with_wiping() {
    let mut random = Random::new(110);
    let mut seen = Seen::default();
    for round in 0..1_200 {
        let k = 1 + round % 12;
        let image = if round % 3 == 0 { fresh_image(k) } else { bare(&mut random, k) };
        run_drawn(&mut random, image, 300, list_with_wiping, &mut seen);
    }
    assert_worth_running(&seen, 360_000);
    assert!(seen.undirty_numbers[0] > 20_000 && seen.undirty_numbers[11] > 5_000, "{seen:?}");
    assert!(seen.wiped.all_at_least(100), "{:?}", seen.wiped);
}

/// The image with a card in another state, if that does no damage and the card exists.
fn with_state(image: &[u16], card: usize, state: usize) -> Option<Vec<u16>> {
    let mut image = image.to_vec();
    let mut store = Store::of(&mut image).unwrap();
    if card >= store.layout.cards {
        return Some(image);
    }
    store.set_card(card, state);
    (reference::judge(&image) == 0).then_some(image)
}

/// Undirty with each field named or not: of cards in each state, in a cycle and outside one, with marked objects on them and without,
/// and of cards that do not exist.
#[test]
fn undirty_in_every_way() {
    let mut random = Random::new(111);
    let mut seen = Seen::default();
    for round in 0..61 {
        let k = if round == 60 { 512 } else { 1 + round % 5 };
        let made = [running, bare, idle][round % 3](&mut random, k);
        let cards = [0, k - 1, k, 65_535];
        let images = cards.iter().flat_map(|&card| (0..4).map(move |state| (card, state)));
        for (card, state) in images {
            let Some(image) = with_state(&made, card, state) else { continue };
            for (who, b, c) in [(0, 0, 0), (1, 0, 0), (0, 1, 0), (0, 0, 256), (7, 0, 0), (16, 0, 0)] {
                same(&mut image.clone(), &Record::new(UNDIRTY, who, card as u16, b, c).to_bytes(), 2, &mut seen);
            }
        }
    }
    println!("{seen:?}");
    let at_least = |number: usize, least| seen.undirty_numbers[number] >= least;
    assert!(at_least(0, 40) && at_least(3, 1_000) && at_least(4, 400) && at_least(10, 100) && at_least(11, 100));
    assert!(seen.wiped.all_at_least(5), "{:?}", seen.wiped);
}

/// A wrong count stops a batch, in a cycle or not, whatever the steps are.
#[test]
fn wrong_counts() {
    let mut random = Random::new(112);
    let mut seen = Seen::default();
    for round in 0..6_000 {
        let k = 1 + round % 4;
        let make = [running, bare, idle, |_: &mut Random, k| fresh_image(k)][round % 4];
        let mut image = make(&mut random, k);
        let pace = Pace::draw(&mut random);
        let steps = list(&mut random, &mut image.clone(), 3, pace);
        miscount(&mut random, &mut image);
        same(&mut image, &steps, 6, &mut seen);
    }
    assert_eq!((seen.refused, seen.steps), (6_000, 0));
}

#[test]
fn damaged_images() {
    let mut random = Random::new(106);
    let mut seen = Seen::default();
    for round in 0..20_000 {
        let mut image = running(&mut random, 1 + round % 3);
        let pace = Pace::draw(&mut random);
        let steps = list(&mut random, &mut image.clone(), 3, pace);
        spoil(&mut random, &mut image);
        // A word that is free to change leaves an image in which the list may run.
        if reference::judge(&image) == 2 {
            same(&mut image, &steps, 6, &mut seen);
        }
    }
    assert!(seen.refused > 5_000 && seen.steps == 0);
}

/// Records of random bytes, of which few have a kind and fewer stand on the desk; each kind alone with random fields beside.
#[test]
fn random_records() {
    let mut random = Random::new(108);
    let mut seen = Seen::default();
    for round in 0..400 {
        let mut image = if round % 2 == 0 { running(&mut random, 2) } else { idle(&mut random, 2) };
        let mut steps: Vec<u8> = (0..100 * RECORD_BYTES).map(|_| random.word() as u8).collect();
        let of_a_kind = steps.chunks_mut(RECORD_BYTES).take(50);
        of_a_kind.for_each(|record| record[0] = random.from_to(1, 15) as u8);
        same(&mut image, &steps, 200, &mut seen);
    }
    println!("{seen:?}");
    assert!(seen.steps == 40_000 && seen.unknown_kinds > 10_000);
    assert!(seen.numbers[3] > 20_000 && seen.numbers[4] > 1_000, "{seen:?}");
}

#[test]
fn misfits_before_damage() {
    let mut image = vec![7; reference::length(1)];
    let mut seen = Seen::default();
    same(&mut image, &[9, 0, 0, 0, 0, 0, 0], 2, &mut seen);
    same(&mut image, &[9, 0, 0, 0, 0, 0, 0, 0], 1, &mut seen);
    same(&mut image, &[9, 0, 0, 0, 0, 0, 0, 0], 2, &mut seen);
    assert_eq!(seen.refused, 3);
}

/// "Empty batch: only the image is judged."
#[test]
fn empty_batches() {
    for (mut image, result) in [(fresh_image(1), 0), (vec![0; 1649], 1), (vec![0; 1650], 2)] {
        let was = image.clone();
        assert_eq!(library::batch(&mut image, &[], &mut []), result);
        assert_eq!(image, was);
    }
}

/// "For new (player 0, 0, 1, 1), begin, finish": what the program prints of them.
#[test]
fn worked_example() {
    let steps = [Record::new(1, 0, 0, 1, 1), Record::new(9, 0, 0, 0, 0), Record::new(13, 0, 0, 0, 0)];
    let bytes: Vec<u8> = steps.iter().flat_map(|record| record.to_bytes()).collect();
    let mut answers = [UNTOUCHED; 6];
    assert_eq!(library::batch(&mut fresh_image(16), &bytes, &mut answers), 0);
    assert_eq!(answers, [0, 1, 0, 0, 0, 0]);
}

/// The library's answers for cases of the vectors, whose results and images must be right.
fn run_vectors(cases: Vec<BatchCase>) -> Vec<(BatchCase, Vec<u16>)> {
    let run = |case: BatchCase| {
        let mut image = case.image.clone();
        let mut answers = vec![UNTOUCHED; case.answers];
        let result = library::batch(&mut image, &case.steps, &mut answers);
        assert_eq!((result, &image), (case.result, &case.left), "case {}", case.name);
        (case, answers)
    };
    cases.into_iter().map(run).collect()
}

/// Cases that were made by the lowest run, as the tightest has them: the vectors' own words where both do the same, else the second
/// implementation's, which has the vectors' by the lowest.
fn by_tightest(cases: Vec<BatchCase>) -> Vec<BatchCase> {
    let by_tightest = |case: BatchCase| match otherwise_by_lowest(&case) {
        Some(_) => by(Placing::Tightest, &case),
        None => case,
    };
    cases.into_iter().map(by_tightest).collect()
}

/// The vectors of document 01: of all that they give, only dues have moved since, and where a new goes.
#[test]
fn outside_vectors() {
    let (cases, left_out) = parse_older_batches(include_str!("../../vectors/batches.txt")).unwrap();
    assert_eq!((cases.len(), left_out), (115, 5));
    for (case, answers) in run_vectors(by_tightest(cases)) {
        assert!(case.gives_but_for_due(&answers), "case {}", case.name);
    }
}

fn assert_as_given(cases: Vec<BatchCase>) {
    for (case, answers) in run_vectors(cases) {
        assert_eq!(answers, case.given, "case {}", case.name);
    }
}

#[test]
fn outside_dues() {
    let (cases, left_out) = parse_older_batches(include_str!("../../vectors/document_02/01-i.txt")).unwrap();
    assert_eq!((cases.len(), left_out), (66, 4));
    assert_as_given(by_tightest(cases));
}

#[test]
fn outside_wiping() {
    let cases = parse_batches(include_str!("../../vectors/document_02/02-ii.txt")).unwrap();
    assert_eq!(cases.len(), 70);
    assert_as_given(by_tightest(cases));
}

#[test]
fn outside_dues_in_batches() {
    let cases = parse_batches(include_str!("../../vectors/document_02/04-iv.txt")).unwrap();
    assert_eq!(cases.len(), 70);
    assert_as_given(by_tightest(cases));
}

#[test]
fn outside_tight() {
    let cases = parse_batches(include_str!("../../vectors/document_02/05-v.txt")).unwrap();
    assert_eq!(cases.len(), 70);
    assert_as_given(cases);
}

/// Whole cycles, and the trace and clean steps that each accepts.
#[test]
fn outside_cycles() {
    let cases = parse_cycles(include_str!("../../vectors/document_02/07-vii.txt")).unwrap();
    assert_eq!(cases.len(), 60);
    let batches = cases.iter().map(|case| case.batch.clone()).collect();
    for (case, (batch, answers)) in cases.iter().zip(run_vectors(batches)) {
        assert_eq!(answers, batch.given, "case {}", batch.name);
        assert_eq!(work_in(&batch.steps, &answers).accepted(), case.work, "case {}", batch.name);
    }
}

/// A finish of the library on the outside vectors whose images have Cover too.
#[test]
fn outside_finishes() {
    let text = include_str!("../../vectors/finishes.txt");
    let mut run = 0;
    for case in parse_older(text).unwrap().0 {
        let Case::Finish(case) = case else { continue };
        if case.cover {
            let mut image = case.image.clone();
            let mut answers = [UNTOUCHED; 2];
            assert_eq!(library::batch(&mut image, &[13, 0, 0, 0, 0, 0, 0, 0], &mut answers), 0);
            assert_eq!((answers, &image), ([0, case.value], &case.left), "case {}", case.name);
            run += 1;
        }
    }
    assert!(run > 0);
}

/// Demand 3 on the library's own answers.
#[test]
fn whole_lists() {
    let mut random = Random::new(107);
    let mut counts = Counts::default();
    for round in 0..120 {
        let k = 1 + round % 6;
        let image = match round % 3 {
            0 => fresh_image(k),
            1 => running(&mut random, k),
            _ => bare(&mut random, k),
        };
        let pace = Pace::draw(&mut random);
        let draw = if round % 4 == 0 { list_with_wiping } else { list };
        let steps = draw(&mut random, &mut image.clone(), 1_000, pace);
        let batches = batches(&mut random, &steps);
        counts.add(&whole_list(&image, &batches, library::batch).unwrap());
    }
    println!("{counts:?}");
    assert!((3..=11).all(|number| counts.numbers[number] > 0) && counts.unknown_kinds > 0);
    assert!((1..=15).all(|kind| counts.accepted[kind] > 0), "a kind was never accepted");
    assert!(counts.wiped.all_at_least(10), "{:?}", counts.wiped);
    assert!(counts.finishes_that_find > 50 && counts.refused_batches > 0);
    assert!(counts.steps >= 100_000 && counts.garbage_freed > 100 && counts.finishes_that_free > 100);
}
