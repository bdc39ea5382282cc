//! Long random lists of steps against the whole-list check.

use reference::generate::{batches, list, list_with_wiping, Pace};
use reference::made::{bare, fresh_image, idle, running, starved, STARVED_CARDS};
use reference::random::Random;
use reference::{batch, judge, whole_list, Counts};

/// Runs a list of `count` steps from the image, in random batches.
fn run(random: &mut Random, image: Vec<u16>, count: usize) -> Counts {
    let pace = Pace::draw(random);
    run_at(random, image, count, pace)
}

fn run_at(random: &mut Random, image: Vec<u16>, count: usize, pace: Pace) -> Counts {
    let steps = list(random, &mut image.clone(), count, pace);
    check(random, &image, &steps)
}

fn check(random: &mut Random, image: &[u16], steps: &[u8]) -> Counts {
    assert_eq!(judge(image), 0);
    let batches = batches(random, steps);
    whole_list(image, &batches, batch).unwrap()
}

fn assert_worth_running(counts: &Counts, steps: usize) {
    println!("{counts:?}");
    assert!(counts.steps >= steps);
    assert!(counts.numbers[0] * 100 >= counts.steps * 60, "accepted {} of {}", counts.numbers[0], counts.steps);
    assert!((1..=15).all(|kind| counts.accepted[kind] > 0), "a kind was never accepted");
    assert!((3..=11).all(|number| counts.numbers[number] > 0), "a number was never given");
    assert!(counts.unknown_kinds > 0 && counts.refused_batches > 0);
    assert!(counts.finishes_that_free > 100 && counts.finishes_that_keep > 100);
    assert!(counts.finishes_that_find > 50 && counts.garbage_freed > 100);
    assert!([3, 4, 10, 11].iter().all(|&number| counts.undirty_numbers[number] > 0), "{:?}", counts.undirty_numbers);
    assert!(counts.wiped.all_at_least(10), "{:?}", counts.wiped);
    assert!(counts.work.accepted >= 10, "{:?}", counts.work);
}

#[test]
fn from_fresh_stores() {
    let mut random = Random::new(1);
    let mut counts = Counts::default();
    for _ in 0..100 {
        let k = random.from_to(1, 6);
        counts.add(&run(&mut random, fresh_image(k), 2000));
    }
    assert_worth_running(&counts, 200_000);
}

#[test]
fn from_images_in_a_cycle() {
    let mut random = Random::new(2);
    let mut counts = Counts::default();
    for _ in 0..700 {
        let k = random.from_to(1, 6);
        let image = running(&mut random, k);
        counts.add(&run(&mut random, image, 300));
    }
    assert_worth_running(&counts, 210_000);
}

#[test]
fn from_images_with_no_cycle() {
    let mut random = Random::new(3);
    let mut counts = Counts::default();
    for _ in 0..60 {
        let k = random.from_to(1, 6);
        let image = idle(&mut random, k);
        counts.add(&run(&mut random, image, 1000));
    }
    assert_worth_running(&counts, 60_000);
}

#[test]
fn from_images_without_packets() {
    let mut random = Random::new(4);
    let mut counts = Counts::default();
    for _ in 0..150 {
        let k = random.from_to(STARVED_CARDS, STARVED_CARDS + 8);
        let image = starved(&mut random, k);
        let pace = Pace { wild: 3, finish: 1, tracers: 40, undirty: 5 };
        counts.add(&run_at(&mut random, image, 120, pace));
    }
    println!("{counts:?}");
    assert!(counts.without_packet > 200, "{}", counts.without_packet);
}

#[test]
fn from_large_images() {
    let mut random = Random::new(5);
    let mut counts = Counts::default();
    for k in [20, 33, 64, 200, 511, 512] {
        let image = if k % 2 == 0 { running(&mut random, k) } else { idle(&mut random, k) };
        counts.add(&run(&mut random, image, 12000 / k));
    }
    println!("{counts:?}");
    assert!(counts.numbers[0] * 100 >= counts.steps * 60);
}

/// Players fill the store in a cycle while undirty steps run after them; among these are cards in hand and owed ones.
#[test]
fn with_wiping() {
    let mut random = Random::new(6);
    let mut counts = Counts::default();
    for round in 0..400 {
        let k = random.from_to(1, 6);
        let image = if round % 3 == 0 { fresh_image(k) } else { bare(&mut random, k) };
        let pace = Pace::draw(&mut random);
        let steps = list_with_wiping(&mut random, &mut image.clone(), 300, pace);
        counts.add(&check(&mut random, &image, &steps));
    }
    assert_worth_running(&counts, 120_000);
    assert!(counts.wiped.all_at_least(1_000) && counts.undirty_numbers[11] > 1_000, "{counts:?}");
}
