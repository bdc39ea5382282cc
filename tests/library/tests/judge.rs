//! `fresh` and `judge` of the proved library against the second implementation, on 200,000 images and more.

use std::ops::Range;

use library::compared::{same_fresh, Verdicts};
use reference::generate::{miscount, spoil};
use reference::image::Store;
use reference::layout::{Layout, Places};
use reference::made::{bare, fresh_image, idle, loose, running, starved, uncovered_image, STARVED_CARDS};
use reference::random::Random;
use reference::width::Width;

/// An image of either width, from one of the makers.
pub fn image<W: Width>(random: &mut Random, k: usize) -> Vec<W> {
    match random.below(7) {
        0 => fresh_image(k),
        1 => idle(random, k),
        2 => loose(random, k),
        3 => uncovered_image(random, k),
        4 => bare(random, k),
        _ => running(random, k),
    }
}

#[test]
fn made_and_spoiled_images() {
    let mut random = Random::new(41);
    let mut verdicts = Verdicts::default();
    for round in 0..40_000 {
        let mut words: Vec<u16> = image(&mut random, 1 + round % 4);
        verdicts.same(&words);
        spoil(&mut random, &mut words);
        verdicts.same(&words);
    }
    for _ in 0..50 {
        verdicts.same(&starved::<u16>(&mut random, STARVED_CARDS));
    }
    assert!(verdicts.sum() > 80_000 && verdicts.of[0] > 20_000 && verdicts.of[2] > 20_000);
}

#[test]
fn one_word_altered_at_every_place() {
    let mut random = Random::new(42);
    let mut verdicts = Verdicts::default();
    for round in 0..12 {
        let words: Vec<u16> = image(&mut random, 1 + round % 2);
        for place in 0..words.len() {
            let was = words[place];
            let others = [0, 1, was.wrapping_add(1), was.wrapping_sub(1), was ^ 1 << random.below(16), random.word()];
            for other in others {
                let mut altered = words.clone();
                altered[place] = other;
                verdicts.same(&altered);
            }
        }
    }
    assert!(verdicts.sum() > 120_000 && verdicts.of[0] > 1_000 && verdicts.of[2] > 1_000);
}

/// Nothing but random words: no image is so, and the first words show it.
#[test]
fn random_words() {
    let mut random = Random::new(43);
    let mut verdicts = Verdicts::default();
    for _ in 0..3_000 {
        let words: Vec<u16> = (0..reference::length(1)).map(|_| random.word()).collect();
        verdicts.same(&words);
    }
    assert_eq!(verdicts.of, [0, 0, 3_000]);
}

/// A part of an image, the largest word drawn for it, and whether another word may stand in it undamaged. Another mark may where the
/// counts follow it.
struct Part {
    what: &'static str,
    places: Range<usize>,
    most: u16,
    is_free: bool,
    counts_follow: bool,
}

fn parts(layout: Layout) -> [Part; 11] {
    let part = |what, from, to, most, is_free| Part { what, places: from..to, most, is_free, counts_follow: false };
    [
        part("heap", 0, layout.start_bits(), 64, true),
        part("start bits", layout.start_bits(), layout.mark_bits(), u16::MAX, false),
        part("mark bits", layout.mark_bits(), layout.card(0), u16::MAX, false),
        Part { counts_follow: true, ..part("mark bits, counted", layout.mark_bits(), layout.card(0), u16::MAX, true) },
        part("cards", layout.card(0), layout.count(0), 4, true),
        part("counts", layout.count(0), layout.register(0, 0), 64, false),
        part("registers", layout.register(0, 0), layout.packet(0), 64, true),
        part("packets", layout.packet(0), layout.tracer(0), 30, false),
        part("tracers", layout.tracer(0), layout.player(0), 32, true),
        part("players", layout.player(0), layout.general(), 2, true),
        part("general", layout.general(), layout.length(), 64, false),
    ]
}

/// Random words in a few places of one part of a made image: the other parts stand, so that this part decides. Every part is seen
/// to damage an image, and those that are free to hold another word to do so undamaged.
#[test]
fn random_words_in_each_part() {
    let mut random = Random::new(46);
    for part in parts(Layout { cards: 1 }) {
        let mut verdicts = Verdicts::default();
        let mut altered = 0;
        for _ in 0..2_000 {
            let made = running(&mut random, 1);
            let mut words = made.clone();
            for _ in 0..random.from_to(1, 3) {
                let place = random.from_to(part.places.start, part.places.end - 1);
                words[place] = random.from_to(0, usize::from(part.most)) as u16;
            }
            if part.counts_follow {
                Store::of(&mut words).unwrap().count_marks();
            }
            altered += usize::from(verdicts.same(&words) == 0 && words != made);
        }
        println!("{}: {:?}, altered and undamaged: {altered}", part.what, verdicts.of);
        assert!(verdicts.of[2] > 200, "{}: {:?}", part.what, verdicts.of);
        assert!(altered > 10 || !part.is_free, "{}: {altered}", part.what);
    }
}

#[test]
fn every_length() {
    let mut verdicts = Verdicts::default();
    for length in 0..=3_000 {
        verdicts.same(&vec![0u16; length]);
    }
    for k in 1..=513 {
        let length = reference::length(k);
        for near in [length - 1, length, length + 1] {
            verdicts.same(&vec![0u16; near]);
        }
        if k <= 512 {
            verdicts.same(&fresh_image::<u16>(k));
        }
    }
    // Lengths that fit are 512 from 1 to 512 cards, all zero and damaged; 6 of them are among the first 3,001 too.
    assert_eq!(verdicts.of[0], 512);
    assert!(verdicts.of[2] >= 512 && verdicts.of[1] > 4_000);
}

/// Each count off by one, with its highest bit set, or the greatest word; and each two that differ swapped, in images of few cards.
fn wrong_counts(image: &[u16]) -> Vec<Vec<u16>> {
    let layout = Layout::of_length(image.len()).unwrap();
    let places: Vec<usize> = (0..layout.cards).map(|c| layout.count(c)).collect();
    let mut wrong = Vec::new();
    for (n, &at) in places.iter().enumerate() {
        for word in [image[at].wrapping_add(1), image[at].wrapping_sub(1), image[at] | 1 << 15, u16::MAX] {
            let mut altered = image.to_vec();
            altered[at] = word;
            wrong.push(altered);
        }
        for &other in places[..n].iter().filter(|&&other| layout.cards < 10 && image[other] != image[at]) {
            let mut altered = image.to_vec();
            altered.swap(at, other);
            wrong.push(altered);
        }
    }
    wrong
}

#[test]
fn counts_of_every_card() {
    let mut random = Random::new(47);
    let mut verdicts = Verdicts::default();
    for k in [1, 2, 3, 4, 5, 6, 7, 64] {
        for make in [running, bare, idle, |_: &mut Random, k| fresh_image(k)] {
            let made = make(&mut random, k);
            assert_eq!(verdicts.same(&made), 0);
            for altered in wrong_counts(&made) {
                assert_eq!(verdicts.same(&altered), 2, "a wrong count, {k} cards");
            }
        }
    }
    println!("{:?}", verdicts.of);
    assert!(verdicts.of[0] == 32 && verdicts.of[2] > 1_500);
}

#[test]
fn large_images() {
    let mut random = Random::new(44);
    let mut verdicts = Verdicts::default();
    for k in [16, 64, 200, 511, 512] {
        for _ in 0..4 {
            let mut words: Vec<u16> = running(&mut random, k);
            verdicts.same(&words);
            spoil(&mut random, &mut words);
            verdicts.same(&words);
            verdicts.same(&idle::<u16>(&mut random, k));
        }
        let mut words: Vec<u16> = running(&mut random, k);
        miscount(&mut random, &mut words);
        assert_eq!(verdicts.same(&words), 2, "a wrong count, {k} cards");
    }
    assert!(verdicts.sum() == 65 && verdicts.of[0] >= 40 && verdicts.of[2] > 0, "{:?}", verdicts.of);
}

#[test]
fn fresh_stores() {
    let mut random = Random::new(45);
    let mut made = 0;
    let lengths =
        (0..=3_000).chain((1..=513).flat_map(|k| [-1, 0, 1].map(|d| (reference::length(k) as isize + d) as usize)));
    for length in lengths {
        let words: Vec<u16> = (0..length).map(|_| random.word()).collect();
        made += usize::from(same_fresh(&words) == 0);
    }
    assert!(made >= 512, "{made}");
}
