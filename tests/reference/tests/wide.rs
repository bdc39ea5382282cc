//! The wide store, by document 02, (ix), in small cases by hand: lengths, fields of 32 bits, and granule and card numbers that 15 or 16 bits do not hold.

use crate::common::{bytes, run};
use reference::judge::{first_damage, Line};
use reference::made::fresh_image;
use reference::record::*;
use reference::wide::twins::{twins, with_twins, Twins, A, O};
use reference::wide::{cards_of_length, length, Image, Layout, Record, Store};
use reference::width::Places;
use reference::{batch, fresh, judge};

fn step(kind: u8, who: u8, a: u32, b: u32, c: u32) -> Record {
    Record::new(kind, who, a, b, c)
}

fn begin() -> Record {
    step(BEGIN, 0, 0, 0, 0)
}

fn finish() -> Record {
    step(FINISH, 0, 0, 0, 0)
}

/// The answers of a list on a fresh store of one card.
fn on_one_card(records: &[Record]) -> Vec<(u32, u32)> {
    run(&mut fresh_image(1), records)
}

/// Lengths and the cards of stores that have them. 1,650 words fit the narrow store of one card.
const LENGTHS: [(usize, Option<usize>); 14] = [
    (0, None),
    (1_384, None),
    (1_645, None),
    (1_646, Some(1)),
    (1_647, None),
    (1_650, None),
    (1_908, Some(2)),
    (262 * 512 + 1_384, Some(512)),
    (262 * 513 + 1_384, Some(513)),
    (262 * 65_535 + 1_384, Some(65_535)),
    (17_171_815, None),
    (17_171_816, Some(65_536)),
    (17_171_817, None),
    (262 * 65_537 + 1_384, None),
];

#[test]
fn lengths() {
    for (words, cards) in LENGTHS {
        assert_eq!(cards_of_length(words), cards, "{words} words");
        let result = u16::from(cards.is_none());
        let mut image = vec![7u32; words];
        assert_eq!(fresh(&mut image), result, "{words} words");
        assert!(cards.is_some() || image.iter().all(|&word| word == 7));
        assert_eq!(judge(&image), result, "{words} words");
        assert_eq!(batch(&mut image, &[], &mut []), result, "{words} words");
    }
    assert!((0..3_000).all(|n| cards_of_length(n).is_some() == (n >= 1_646 && (n - 1_384) % 262 == 0)));
}

/// The narrow formula, 16 bits to a bit word, the narrow limit, one card too many and none at all.
#[test]
fn the_lengths_tell_wrong_rules() {
    let rule = |words_a_card: usize, cards: std::ops::RangeInclusive<usize>| {
        move |n: usize| cards.clone().find(|k| words_a_card * k + 1_384 == n)
    };
    let is_told = |wrong: &dyn Fn(usize) -> Option<usize>| LENGTHS.iter().any(|&(n, cards)| wrong(n) != cards);
    assert!(!is_told(&rule(262, 1..=65_536)));
    for (words_a_card, cards) in
        [(266, 1..=65_536), (265, 1..=65_536), (262, 1..=512), (262, 1..=65_535), (262, 1..=65_537), (262, 0..=65_536)]
    {
        assert!(is_told(&rule(words_a_card, cards.clone())), "{words_a_card}, {cards:?}");
    }
}

/// The parts follow one another without a gap.
#[test]
fn parts() {
    for cards in [1, 2, 513, 65_536] {
        let layout = Layout { cards };
        let ends = [
            (layout.granule(layout.granules()), layout.start_bits()),
            (layout.start_bits() + layout.granules() / 32, layout.mark_bits()),
            (layout.mark_bits() + layout.granules() / 32, layout.card(0)),
            (layout.card(cards), layout.count(0)),
            (layout.count(cards), layout.register(0, 0)),
            (layout.register(16, 0), layout.packet(0)),
            (layout.packet(32), layout.tracer(0)),
            (layout.tracer(8), layout.player(0)),
            (layout.player(16), layout.general()),
            (layout.general() + 8, length(cards)),
        ];
        assert!(ends.iter().all(|(end, next)| end == next), "{ends:?}");
    }
}

#[test]
fn step_bytes_and_answers_that_do_not_fit() {
    let finish = bytes(&[finish()]);
    for (steps, answers, result) in
        [(&finish[..], 2, 0), (&finish[..8], 2, 1), (&finish[..8], 1, 1), (&finish[..15], 2, 1), (&finish[..], 4, 1)]
    {
        let mut image: Vec<u32> = fresh_image(1);
        let mut given = vec![5; answers];
        assert_eq!(batch(&mut image, steps, &mut given), result, "{} bytes, {answers} words", steps.len());
        assert!(result == 0 || given == vec![5; answers]);
    }
}

/// Document 01's cases of a new on one card, which the wide store keeps.
#[test]
fn news() {
    let new = |b, c| on_one_card(&[step(NEW, 0, 0, b, c)])[0];
    assert_eq!([new(63, 250), new(63, 251), new(64, 0), new(1_024, 0)], [(0, 1), (8, 0), (9, 0), (9, 0)]);
    assert_eq!([new(1_025, 0), new(0, 0), new(65_537, 0), new(1, 65_536)], [(8, 0); 4]);
}

/// Each with a field that is right in its low half.
#[test]
fn fields_of_32_bits() {
    let high = 65_536;
    let answers = on_one_card(&[
        step(NEW, 0, 0, 2, 1),
        step(NEW, 0, high, 1, 1),
        step(LOAD, 0, 1, high, 0),
        step(LOAD, 0, 1, 0, high),
        step(STORE, 0, 0, high, 0),
        step(STORE, 0, 0, 0, high),
        step(HAND, 0, 0, high, 0),
        step(READ, 0, 0, high, 0),
        step(READ, 0, 0, 0, high),
        step(WRITE, 0, high, 0, 1),
        step(WRITE, 0, 0, high + 1, 1),
        step(DUE, 0, high, 0, 0),
        step(DUE, 0, 61, 0, 0),
        step(DUE, 0, 61, high, 0),
        step(UNDIRTY, 0, high, 0, 0),
        begin(),
        step(SCAN, 0, high, 0, 0),
        step(UNDIRTY, 0, high, 0, 0),
    ]);
    let numbers: Vec<u32> = answers.iter().map(|answer| answer.0).collect();
    assert_eq!(numbers, [0, 4, 4, 7, 7, 4, 4, 7, 3, 4, 7, 0, 0, 3, 4, 0, 4, 4]);
    assert_eq!((answers[11].1, answers[12].1), (1, 0));
}

#[test]
fn level_words_of_32_bits() {
    for value in [0, 65_535, 65_536, 0x8000_0000, u32::MAX] {
        let list = [step(NEW, 0, 0, 1, 0), step(WRITE, 0, 0, 1, value), step(READ, 0, 0, 1, 0)];
        assert_eq!(on_one_card(&list), [(0, 1), (0, 0), (0, value)]);
    }
}

/// "3 also if a zero byte isn't 0", before any other number; a begin that is refused so does not begin, and the finish behind it is out of phase.
#[test]
fn zero_bytes() {
    for zeros in [[1, 0], [0, 1], [0, 128], [255, 255]] {
        for kind in 1..=15 {
            let answers = on_one_card(&[Record { zeros, ..step(kind, 0, 0, 0, 0) }, finish()]);
            assert_eq!(answers, [(3, 0), (10, 0)], "kind {kind}, {zeros:?}");
        }
        let off_the_desk = Record { zeros, ..step(DROP, 16, 65_536, 0, 0) };
        assert_eq!(on_one_card(&[off_the_desk]), [(3, 0)]);
    }
}

/// 65 objects of 1,024 granules: the last one and the granules freed have numbers above 65,535.
#[test]
fn values_above_65_535() {
    let news: Vec<Record> = (0..65).map(|n| step(NEW, n as u8 / 16, n % 16, 1_024, 0)).collect();
    let drops = (0..65).map(|n| step(DROP, n as u8 / 16, n % 16, 0, 0));
    let mut image = fresh_image(1_100);
    let answers = run(&mut image, &news);
    assert_eq!((answers[63], answers[64]), ((0, 64_513), (0, 65_537)));
    assert_eq!(run(&mut image, &[step(DUE, 0, 3_839, 0, 0), step(DUE, 0, 3_840, 0, 0)]), [(0, 0), (0, 1)]);
    let answers = run(&mut image, &drops.chain([begin(), finish()]).collect::<Vec<_>>());
    assert_eq!(answers.last(), Some(&(0, 66_560)));
    assert_eq!(run(&mut image, &[step(DUE, 0, 70_399, 0, 0), step(DUE, 0, 70_400, 0, 0)]), [(0, 0), (0, 1)]);
}

/// The last granules of the largest store: an object on card 65,535 that links to itself, whose card is owed, dirtied, cleaned and wiped.
#[test]
fn the_last_card_of_the_largest_store() {
    let last = 64 * 65_536 - 1;
    let mut image = vec![0; length(65_536)];
    let mut store = Store::of(&mut image).unwrap();
    store.set_run(1, last - 1, 0);
    store.set_first_run(1);
    store.set_object(last, 1, 1);
    store.set_register(0, 0, last);
    let (store_it, barrier) = (step(STORE, 0, 0, 0, 0), step(BARRIER, 0, 0, 0, 0));
    assert_eq!(run(&mut image, &[begin(), store_it]), [(0, 0); 2]);
    assert_eq!(Image::of(&image).unwrap().owed_card(0), Some(65_535));
    let undirty = |card| step(UNDIRTY, 0, card, 0, 0);
    assert_eq!(
        run(&mut image, &[barrier, undirty(65_536), undirty(65_535), undirty(65_535)])[1..],
        [(4, 0), (0, 0), (11, 0)]
    );
    assert_eq!(run(&mut image, &[store_it, barrier, step(CLEAN, 7, 0, 0, 0)]), [(0, 0); 3]);
    assert_eq!(Image::of(&image).unwrap().tracer(7).card, Some((65_535, last - 63)));
    let list =
        [step(LOAD, 0, 1, 0, 0), step(SCAN, 0, 0, 0, 0), step(DROP, 0, 0, 0, 0), step(DROP, 0, 1, 0, 0), finish()];
    assert_eq!(run(&mut image, &list), [(0, last as u32), (0, 0), (0, 0), (0, 0), (0, 0)]);
    assert_eq!(run(&mut image, &[begin(), finish()]), [(0, 0), (0, 1)]);
    assert!(image == fresh_image::<u32>(65_536));
}

#[test]
fn numbers_that_few_bits_do_not_tell_apart() {
    for Twins { what, image, line } in twins() {
        assert_eq!(first_damage(&image), line, "{what}");
    }
}

/// A link, a register, a first run, a next run and an entry past the end of the store, whose low 16 bits would be right.
#[test]
fn numbers_past_the_end() {
    let sound = || {
        let mut image = with_twins(600, 32_768);
        Store::of(&mut image).unwrap().append(3, O);
        image
    };
    assert_eq!(first_damage(&sound()), None);
    type Alter = fn(&mut Store);
    let past: [(&str, Line, Alter); 6] = [
        ("link", Line::References, |s| s.set_link(O, 0, A + 65_536)),
        ("register", Line::References, |s| s.set_register(0, 0, A + 65_536)),
        ("owed card", Line::References, |s| s.set_owed(0, Some(65_536))),
        ("first run", Line::Filling, |s| s.set_first_run(65_537)),
        ("next run", Line::Filling, |s| s.set_run(1, 4, 6 + 65_536)),
        ("entry", Line::Marks, |s| s.append(4, O + 65_536)),
    ];
    for (what, line, alter) in past {
        let mut image = sound();
        alter(&mut Store::of(&mut image).unwrap());
        assert_eq!(first_damage(&image), Some(line), "{what}");
    }
}
