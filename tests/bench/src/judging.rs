//! Timings of judge and of fresh.

use std::cell::RefCell;
use std::hint::black_box;
use std::time::Duration;

use reference::made::{fresh_image, idle, running};
use reference::random::Random;

use crate::calls::judge_all;
use crate::timing::{in_turn, pass, timed, Goals, NOT_SLOWER};
use crate::work;

/// What judging an image of one kind takes, in nanoseconds and in plain passes: the mean over all, and the most passes of one.
#[derive(Default)]
struct Judged {
    ours: f64,
    theirs: f64,
    passes: f64,
    most_passes: f64,
}

fn judged(images: &[Vec<u16>]) -> Judged {
    let mut sum = Judged::default();
    let share = 1.0 / images.len() as f64;
    for image in images.chunks(1) {
        let mut ours = || judge_all(library::judge, image);
        let mut theirs = || judge_all(reference::judge, image);
        let mut passes = || timed(|| (0..5).for_each(|_| pass(&image[0])));
        let [ours, theirs, five_passes] = in_turn(8, [&mut ours, &mut theirs, &mut passes]);
        let passes = ours / (five_passes / 5.0);
        sum.ours += share * ours;
        sum.theirs += share * theirs;
        sum.passes += share * passes;
        sum.most_passes = sum.most_passes.max(passes);
    }
    sum
}

/// So many random images of one kind.
pub fn drawn(make: fn(&mut Random, usize) -> Vec<u16>, k: usize, count: u64) -> Vec<Vec<u16>> {
    (1..=count).map(|seed| make(&mut Random::new(seed), k)).collect()
}

pub fn judging(goals: &mut Goals) {
    println!("judge                         library ns  second ns  library/second  passes  most");
    for k in [1, 16, 64, 512] {
        let kinds = [
            ("fresh", vec![fresh_image(k)]),
            ("no cycle", vec![work::compact(k)]),
            ("no cycle, random", drawn(idle, k, 24)),
            ("in a cycle", vec![work::half_marked(k)]),
            ("in a cycle, random", drawn(running, k, 24)),
        ];
        for (what, images) in kinds {
            let Judged { ours, theirs, passes, most_passes } = judged(&images);
            let ratio = ours / theirs;
            println!("  k = {k:3}, {what:18} {ours:11.0} {theirs:10.0} {ratio:14.2} {passes:8.1} {most_passes:5.1}");
            goals.at_most("judge against the second implementation", ratio, NOT_SLOWER);
            if k == 512 {
                let limit = if what.starts_with("in a cycle") { 5.0 } else { 3.0 };
                goals.at_most(&format!("judge at k = 512, {what}, in plain passes"), passes, limit);
            }
        }
    }
}

/// The kind of a random image: the sizes of its objects are drawn first, with these weights.
fn kind(seed: u64) -> usize {
    Random::new(seed).weighted(&[(3, 0), (3, 1), (2, 2), (1, 3)])
}

/// Eight seeds for each of the first `count`, of the same kind as that one, and none twice.
fn seeds_alike(count: u64) -> Vec<u64> {
    let mut next = count;
    let mut alike = |seed| loop {
        next += 1;
        if kind(next) == kind(seed) {
            return next;
        }
    };
    (1..=count).flat_map(|seed| [seed; 8]).map(&mut alike).collect()
}

/// As many cards are judged at each k, in turn, and no image twice in a row: an image that is judged again and again would be known to
/// the processor's caches and branch predictor, a small one more than a large one.
pub fn growing(goals: &mut Goals) {
    type Make = fn(usize, &[u64]) -> Vec<Vec<u16>>;
    let kinds: [(&str, u64, Make); 4] = [
        ("no cycle", 1, |k, seeds| seeds.iter().map(|_| work::compact(k)).collect()),
        ("no cycle, random", 24, |k, seeds| seeds.iter().map(|&seed| idle(&mut Random::new(seed), k)).collect()),
        ("in a cycle", 1, |k, seeds| seeds.iter().map(|_| work::half_marked(k)).collect()),
        ("in a cycle, random", 24, |k, seeds| seeds.iter().map(|&seed| running(&mut Random::new(seed), k)).collect()),
    ];
    for (what, count, make) in kinds {
        let large = make(512, &(1..=count).collect::<Vec<_>>());
        let small = make(64, &seeds_alike(count));
        let [large, small] =
            in_turn(4, [&mut || judge_all(library::judge, &large), &mut || judge_all(library::judge, &small)]);
        let growth = large / small;
        println!("  cost of a card, {what}, k = 512 against k = 64: {growth:.2}");
        goals.at_most("cost of a card, k = 512 against k = 64", growth, 1.3);
    }
}

type Fresh = fn(&mut [u16]) -> u16;

/// The time of making a store so many times over; it must come out as the second implementation makes it.
fn make(fresh: Fresh, times: usize, image: &mut [u16], wanted: &[u16]) -> Duration {
    image.fill(1);
    let mut result = 0;
    let took = timed(|| (0..times).for_each(|_| result |= fresh(black_box(&mut *image))));
    assert_eq!(result, 0, "the result of fresh");
    assert!(image == wanted, "a fresh store");
    took
}

pub fn making(goals: &mut Goals) {
    println!("fresh");
    for k in [1, 16, 512] {
        let wanted = fresh_image(k);
        let image = RefCell::new(vec![0; reference::length(k)]);
        // A small store is made in less time than a clock tells apart.
        let times = 512 / k;
        let mut ours = || make(library::fresh, times, &mut image.borrow_mut(), &wanted);
        let mut theirs = || make(reference::fresh, times, &mut image.borrow_mut(), &wanted);
        let [ours, theirs] = in_turn(100, [&mut ours, &mut theirs]).map(|all| all / times as f64);
        println!("  k = {k:3}               {ours:12.0} {theirs:10.0} {:14.2}", ours / theirs);
        goals.at_most("fresh against the second implementation", ours / theirs, NOT_SLOWER);
    }
}
