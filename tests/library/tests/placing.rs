//! Where a new goes, by document 02, (v): the proved library against the second implementation, memory for memory, on lists that fill gaps of
//! many lengths; and both rules, the library by the tightest run and the second implementation by the lowest.

use library::compared::{same, Seen};
use reference::both_rules::{both_rules, lists, Shown};
use reference::events::events;
use reference::generate::{batches, list_with_gaps, Pace};
use reference::image::Store;
use reference::layout::LARGEST_OBJECT;
use reference::made::{bare, fresh_image, gaps, idle, running};
use reference::placed::Placed;
use reference::random::Random;
use reference::record::{Record, NEW};
use reference::{batch_by, judge, length, Placing};

/// A list of so many steps in random batches.
fn run(random: &mut Random, mut image: Vec<u16>, count: usize, seen: &mut Seen, placed: &mut Placed) {
    let pace = Pace::draw(random);
    let steps = list_with_gaps(Placing::Tightest, random, &mut image.clone(), count, pace);
    placed.count(&image, &steps);
    for (steps, answer_words) in batches(random, &steps) {
        same(&mut image, &steps, answer_words, seen);
    }
}

#[test]
fn gaps_of_many_lengths() {
    let mut random = Random::new(114);
    let (mut seen, mut placed) = (Seen::default(), Placed::default());
    for round in 0..800 {
        let k = 1 + round % 12;
        let image = match round % 5 {
            0 => fresh_image(k),
            1 => running(&mut random, k),
            2 => [bare, idle][round % 2](&mut random, k),
            _ => gaps(&mut random, k),
        };
        run(&mut random, image, 300, &mut seen, &mut placed);
    }
    println!("{seen:?}\n{placed:?}");
    assert!(seen.every_kind() && seen.every_refusal() && seen.refused > 1_000, "{seen:?}");
    assert!(placed.all_at_least(5_000), "{placed:?}");
}

#[test]
fn large_stores() {
    let mut random = Random::new(115);
    let (mut seen, mut placed) = (Seen::default(), Placed::default());
    for k in [64, 511, 512, 512] {
        let image = gaps(&mut random, k);
        run(&mut random, image, 400, &mut seen, &mut placed);
    }
    println!("{placed:?}");
    assert!(placed.numbers[0] > 500 && placed.equal_above > 100 && placed.longer_below > 100, "{placed:?}");
}

/// A store with runs of these lengths, an object of one granule behind each, and objects in all that is left.
fn with_runs(k: usize, lengths: &[usize]) -> Vec<u16> {
    let mut words = vec![0; length(k)];
    let mut store = Store::of(&mut words).unwrap();
    let mut g = 1;
    for (n, &length) in lengths.iter().enumerate() {
        let behind = g + length + 1;
        store.set_run(g, length, if n + 1 < lengths.len() { behind } else { 0 });
        store.set_object(g + length, 1, 0);
        g = behind;
    }
    store.set_first_run(1);
    for start in (g..64 * k).step_by(LARGEST_OBJECT) {
        store.set_object(start, (64 * k - start).min(LARGEST_OBJECT), 0);
    }
    assert_eq!(judge(&words), 0);
    words
}

/// Every order of four runs of 2 to 5 granules, and every size from 0 to one more than the longest: once, and again and again until there is
/// no room.
#[test]
fn every_order_of_four_runs() {
    let mut seen = Seen::default();
    for n in 0..256 {
        let lengths = [0, 2, 4, 6].map(|shift| 2 + (n >> shift) % 4);
        let image = with_runs(1, &lengths);
        for size in 0..=6 {
            let record = Record::new(NEW, 3, 4, size, 0);
            same(&mut image.clone(), &record.to_bytes(), 2, &mut seen);
            same(&mut image.clone(), &record.to_bytes().repeat(12), 24, &mut seen);
        }
    }
    println!("{seen:?}");
    assert!(seen.accepted[1] > 5_000 && seen.numbers[8] > 1_000 && seen.numbers[9] > 5_000, "{seen:?}");
}

/// Runs about the largest size of an object, and runs longer than that.
#[test]
fn long_runs() {
    let mut seen = Seen::default();
    let lengths = [3_000, 1_025, 1_024, 1_023, 1_500, 1_024];
    let image = with_runs(160, &lengths);
    for size in [1, 1_022, 1_023, 1_024, 1_025] {
        let record = Record::new(NEW, 0, 0, size, 1);
        same(&mut image.clone(), &record.to_bytes().repeat(12), 24, &mut seen);
    }
    assert!(seen.accepted[1] > 20 && seen.numbers[8] == 12 && seen.numbers[9] > 5, "{seen:?}");
}

#[test]
fn the_same_answers_under_both_rules() {
    let mut shown = Shown::default();
    for list in lists() {
        let by_lowest =
            |image: &mut [u16], steps: &[u8], answers: &mut [u16]| batch_by(Placing::Lowest, image, steps, answers);
        let lowest = events(&list.image, &list.batches, by_lowest);
        let tightest = events(&list.image, &list.batches, library::batch);
        let compared = both_rules(&list.image, &lowest, &tightest).unwrap();
        shown.count(&compared, &tightest);
    }
    println!("{shown:?}");
    assert!(shown.is_worth_running(), "{shown:?}");
}
