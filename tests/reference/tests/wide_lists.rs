//! Long random lists of steps on wide stores against the whole-list check.

use reference::generate::{batches_of, list, list_with_gaps, list_with_wiping, Pace};
use reference::image::ImageOf;
use reference::made::{bare, fresh_image, gaps, idle, running, spread, starved, STARVED_CARDS};
use reference::random::Random;
use reference::{batch, judge, whole_list, Counts, Placing};

fn check(random: &mut Random, image: &[u32], steps: &[u8]) -> Counts {
    assert_eq!(judge(image), 0);
    let batches = batches_of::<u32>(random, steps);
    whole_list(image, &batches, batch).unwrap()
}

fn run(random: &mut Random, image: Vec<u32>, count: usize) -> Counts {
    let pace = Pace::draw(random);
    let steps = list(random, &mut image.clone(), count, pace);
    check(random, &image, &steps)
}

fn assert_worth_running(counts: &Counts, steps: usize) {
    println!("{counts:?}");
    assert!(counts.steps >= steps);
    assert!(counts.numbers[0] * 100 >= counts.steps * 55, "accepted {} of {}", counts.numbers[0], counts.steps);
    assert!((1..=15).all(|kind| counts.accepted[kind] > 0), "a kind was never accepted");
    assert!((3..=11).all(|number| counts.numbers[number] > 0), "a number was never given");
    assert!(counts.unknown_kinds > 0 && counts.refused_batches > 0);
    assert!(counts.finishes_that_free > 50 && counts.finishes_that_find > 20 && counts.garbage_freed > 100);
    assert!([3, 4, 10, 11].iter().all(|&number| counts.undirty_numbers[number] > 0), "{:?}", counts.undirty_numbers);
}

#[test]
fn small_stores() {
    let mut random = Random::new(201);
    let mut counts = Counts::default();
    for round in 0..240 {
        let k = 1 + round % 12;
        let image = match round % 4 {
            0 => fresh_image(k),
            1 => idle(&mut random, k),
            _ => running(&mut random, k),
        };
        counts.add(&run(&mut random, image, 300));
    }
    assert_worth_running(&counts, 72_000);
}

#[test]
fn wiping_and_gaps() {
    let mut random = Random::new(202);
    let mut counts = Counts::default();
    for round in 0..80 {
        let k = 1 + round % 6;
        let pace = Pace::draw(&mut random);
        let (image, steps) = if round % 2 == 0 {
            let image: Vec<u32> = bare(&mut random, k);
            let steps = list_with_wiping(&mut random, &mut image.clone(), 250, pace);
            (image, steps)
        } else {
            let image: Vec<u32> = gaps(&mut random, k);
            let steps = list_with_gaps(Placing::Tightest, &mut random, &mut image.clone(), 250, pace);
            (image, steps)
        };
        counts.add(&check(&mut random, &image, &steps));
    }
    assert_worth_running(&counts, 20_000);
    assert!(counts.wiped.all_at_least(50), "{:?}", counts.wiped);
}

#[test]
fn no_packet_to_be_had() {
    let mut random = Random::new(203);
    let mut counts = Counts::default();
    for _ in 0..40 {
        let image: Vec<u32> = starved(&mut random, STARVED_CARDS + 4);
        let pace = Pace { wild: 3, finish: 1, tracers: 40, undirty: 5 };
        let steps = list(&mut random, &mut image.clone(), 120, pace);
        counts.add(&check(&mut random, &image, &steps));
    }
    assert!(counts.without_packet > 50, "{}", counts.without_packet);
}

/// How often lists have left granule numbers above 32,768 and above 65,536 in registers, in links, in packets, in hands and as the next granule on
/// a card, and as first run, next run and length of a run.
#[derive(Debug, Default)]
struct Far {
    above: [[usize; 7]; 2],
}

impl Far {
    fn count(&mut self, words: &[u32]) {
        let image = ImageOf::of(words).unwrap();
        for (above, limit) in self.above.iter_mut().zip([32_768, 65_536]) {
            let is_above = |g: &usize| *g > limit;
            let links = image.objects().flat_map(|o| o.links).map(|&g| g as usize);
            let places = [
                image.registers().filter(is_above).count(),
                links.filter(is_above).count(),
                image.entered().filter(is_above).count(),
                image.tracers().filter_map(|t| t.hand).map(|(g, _)| g).filter(is_above).count(),
                image.tracers().filter_map(|t| t.card).map(|(_, g)| g).filter(is_above).count(),
                image.runs().map(|(g, _)| g).filter(is_above).count(),
                image.runs().map(|(_, length)| length).filter(is_above).count(),
            ];
            above.iter_mut().zip(places).for_each(|(above, place)| *above += place);
        }
    }
}

fn far_lists(cards: &[usize], seed: u64, steps: usize) -> (Counts, Far) {
    let mut random = Random::new(seed);
    let (mut counts, mut far) = (Counts::default(), Far::default());
    for &k in cards {
        let image: Vec<u32> = spread(&mut random, k);
        far.count(&image);
        let pace = Pace { finish: 1, ..Pace::draw(&mut random) };
        let mut left = image.clone();
        let steps = list(&mut random, &mut left, steps, pace);
        far.count(&left);
        counts.add(&check(&mut random, &image, &steps));
    }
    println!("{counts:?}\n{far:?}");
    (counts, far)
}

#[test]
fn granules_that_16_bits_do_not_hold() {
    let cards: Vec<usize> = [513, 600, 1_025, 1_100, 4_400].repeat(4);
    let (counts, far) = far_lists(&cards, 204, 100);
    assert!(counts.numbers[0] * 100 >= counts.steps * 55 && counts.finishes_that_free > 0, "{counts:?}");
    assert!((1..=15).all(|kind| counts.accepted[kind] > 0), "a kind was never accepted");
    assert!(far.above.iter().flatten().all(|&above| above >= 5), "{far:?}");
}

#[test]
fn full_stores_of_more_than_512_cards() {
    let mut random = Random::new(205);
    let mut counts = Counts::default();
    for k in [513, 600] {
        let image = running(&mut random, k);
        counts.add(&run(&mut random, image, 25));
        let image = idle(&mut random, k);
        counts.add(&run(&mut random, image, 25));
    }
    assert!(counts.numbers[0] * 100 >= counts.steps * 55, "{counts:?}");
}

#[test]
fn the_largest_store() {
    let (counts, far) = far_lists(&[65_536, 65_536], 206, 25);
    assert!(counts.numbers[0] * 100 >= counts.steps * 55, "{counts:?}");
    assert!(far.above.iter().all(|above| above[0] > 0 && above[1] > 0 && above[2] > 0), "{far:?}");
}
