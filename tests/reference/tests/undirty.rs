//! Undirty and the counts, by document 02, (ii): "Step 15, undirty, names a card in a [..]; it turns state 1 to 0 and 3 to 2."

use std::collections::BTreeMap;

use crate::common::altered::*;
use crate::common::*;
use reference::image::{Image, Store, Tracer};
use reference::layout::length;
use reference::made::fresh_image;
use reference::steps::step_by;
use reference::vectors::{parse_batches, Case};
use reference::{judge, Placing};

/// An object of one granule on each card, at its second granule, marked on some of them; a cycle runs if there are any.
fn objects(k: usize, marked: &[usize]) -> Vec<u16> {
    let mut words = vec![0; length(k)];
    let mut store = Store::of(&mut words).unwrap();
    for c in 0..k {
        store.set_object(64 * c + 1, 1, 1);
        let next = if c + 1 < k { 64 * c + 66 } else { 0 };
        store.set_run(64 * c + 2, if c + 1 < k { 63 } else { 62 }, next);
    }
    store.set_first_run(2);
    marked.iter().for_each(|&c| store.mark(64 * c + 1));
    store.set_running(!marked.is_empty());
    words
}

fn states(image: &[u16]) -> Vec<usize> {
    let image = Image::of(image).unwrap();
    (0..image.cards()).map(|c| image.card(c)).collect()
}

fn counts(image: &[u16]) -> Vec<usize> {
    let image = Image::of(image).unwrap();
    (0..image.cards()).map(|c| image.card_count(c)).collect()
}

const CARDS: usize = 3;

/// The cards with marked objects: outside a cycle there are none, and in one card 0 or card 2 has none.
const MARKED: [&[usize]; 3] = [&[], &[0, 1], &[1, 2]];

/// Undirty steps with each unnamed field 0 or not, of each card and of cards that do not exist.
fn undirty_steps() -> Vec<Record> {
    let fields = [(0, 0, 0), (1, 0, 0), (255, 0, 0), (0, 1, 0), (0, 0, 1), (0, 65535, 65535)];
    let cards = [0, 1, 2, 3, 4, 255, 256, 65535];
    let of_card = |card| fields.map(|(who, b, c)| step(UNDIRTY, who, card, b, c));
    cards.into_iter().flat_map(of_card).collect()
}

/// The lowest number whose condition holds, where all cards are in that state.
fn number_of(record: Record, marked: &[usize], state: usize) -> u16 {
    match () {
        _ if (record.who, record.b, record.c) != (0, 0, 0) => 3,
        _ if record.a() >= CARDS => 4,
        _ if marked.is_empty() => 10,
        _ if matches!(state, 0 | 2) || marked.contains(&record.a()) => 11,
        _ => 0,
    }
}

/// Every way in which the conditions of numbers 3, 4, 10 and 11 hold or not.
#[test]
fn numbers_in_their_order() {
    let mut shown = BTreeMap::new();
    for (marked, state) in MARKED.iter().flat_map(|marked| (0..4).map(move |state| (marked, state))) {
        let mut image = objects(CARDS, marked);
        (0..CARDS).for_each(|c| Store::of(&mut image).unwrap().set_card(c, state));
        for record in undirty_steps() {
            let number = number_of(record, marked, state);
            *shown.entry(number).or_insert(0) += 1;
            let (mut left, mut wanted) = (image.clone(), image.clone());
            assert_eq!(run(&mut left, &[record]), [(number, 0)], "{record:?}, cards in state {state}");
            if number == 0 {
                Store::of(&mut wanted).unwrap().set_card(record.a(), [0, 0, 2, 2][state]);
            }
            assert!(left == wanted, "image after {record:?}, cards in state {state}");
        }
    }
    assert_eq!(shown, [(0, 4), (3, 480), (4, 60), (10, 12), (11, 20)].into());
}

#[test]
fn the_last_card_of_every_store() {
    for k in [1, 2, 16, 511, 512] {
        let mut image = fresh_image(k);
        run(&mut image, &[begin()]);
        Store::of(&mut image).unwrap().set_card(k - 1, 1);
        assert_eq!(run(&mut image, &[undirty(k as u16), undirty(65535)]), [(4, 0), (4, 0)]);
        assert_eq!(run(&mut image, &[undirty(k as u16 - 1), undirty(k as u16 - 1)]), [(0, 0), (11, 0)]);
        assert!(states(&image).iter().all(|&state| state == 0));
    }
}

/// Two cards full of objects of one granule, each linked from the next one; the last is held.
fn full_chain() -> Vec<u16> {
    let mut words = vec![0; length(2)];
    let mut store = Store::of(&mut words).unwrap();
    for g in 1..128 {
        store.set_object(g, 1, 1);
        store.set_link(g, 0, g - 1);
    }
    store.set_register(0, 0, 127);
    words
}

#[test]
fn objects_are_counted_one_by_one_until_the_finish() {
    let mut image = full_chain();
    run(&mut image, &[begin()]);
    assert_eq!(counts(&image), [0, 0]);
    run(&mut image, &[scan(0, 0)]);
    let mut last = counts(&image);
    assert_eq!(last, [0, 1]);
    while run(&mut image, &[trace(0)])[0].0 == 0 {
        let now = counts(&image);
        assert!(now[0] - last[0] + now[1] - last[1] <= 1);
        last = now;
    }
    // Granule 0 is never used.
    assert_eq!(last, [63, 64]);
    assert_eq!(run(&mut image, &[finish()]), [(0, 0)]);
    assert_eq!(counts(&image), [0, 0]);
}

/// An object counts on its first granule's card: card 1 has none, and may be wiped.
#[test]
fn an_object_over_two_cards() {
    let mut image = fresh_image(2);
    run(&mut image, &[new(0, 0, 62, 0), new(0, 1, 2, 1), begin(), scan(0, 0)]);
    assert_eq!((Image::of(&image).unwrap().register(0, 1), counts(&image)), (63, vec![2, 0]));
    (0..2).for_each(|c| Store::of(&mut image).unwrap().set_card(c, 1));
    assert_eq!(run(&mut image, &[undirty(0), undirty(1)]), [(11, 0), (0, 0)]);
}

/// An object that no packet has space for is marked and counted all the same, on the card that turns dirty.
#[test]
fn counted_without_a_packet() {
    let mut image = vec![0; length(16)];
    let mut store = Store::of(&mut image).unwrap();
    (1..1024).for_each(|g| store.set_object(g, 1, 1));
    store.set_running(true);
    for g in 1..=960 {
        store.mark(g);
        store.append((g - 1) / 30, g);
    }
    store.set_register(0, 0, 1023);
    assert_eq!(counts(&image)[15], 1);
    assert_eq!(run(&mut image, &[scan(0, 0), undirty(15)]), [(0, 0), (11, 0)]);
    assert_eq!((states(&image)[15], counts(&image)[15]), (1, 2));
}

/// "A fresh cue dirties its card while it is being filled, and the halt then cleans it for nothing."
#[test]
fn a_fresh_cue() {
    let mut image = fresh_image(2);
    run(&mut image, &[new(0, 0, 63, 1), begin(), scan(0, 0), trace(0), trace(0), trace(0)]);
    run(&mut image, &[new(1, 0, 2, 2), new(1, 1, 1, 0), store(1, 0, 0, 1), barrier(1)]);
    assert_eq!((states(&image), counts(&image)), (vec![0, 1], vec![1, 0]));
    assert_eq!(run(&mut image.clone(), &[clean(0)]), [(0, 0)]);
    assert_eq!(run(&mut image, &[undirty(1), clean(0)]), [(0, 0), (11, 0)]);
    assert_eq!(run(&mut image, &[finish()]), [(0, 0)]);
}

/// "an object skipped on a dirty card is marked but not traced then": its card must stay dirty, or its links are lost.
#[test]
fn marked_but_not_traced() {
    let mut image = fresh_image(1);
    run(&mut image, &[new(0, 0, 1, 1), new(0, 1, 1, 0), begin(), store(0, 0, 0, 1), barrier(0), scan(0, 0)]);
    run(&mut image, &[new(0, 2, 1, 0), store(0, 0, 0, 2), barrier(0), drop(0, 2)]);
    // Both registers' objects come off and are skipped; object 3 is linked from object 1 alone.
    assert_eq!(run(&mut image, &[trace(0), trace(0), trace(0), trace(0)]), [(0, 0), (0, 0), (0, 0), (11, 0)]);
    assert_eq!((states(&image), counts(&image)), (vec![1], vec![2]));
    assert_eq!(run(&mut image, &[undirty(0), finish()]), [(11, 0), (0, 0)]);
}

/// A card in a tracer's hand may be wiped: the tracer goes on with it.
#[test]
fn a_card_in_hand() {
    let mut image = objects(2, &[0]);
    let mut store = Store::of(&mut image).unwrap();
    store.set_card(1, 3);
    let tracer = Tracer { card: Some((1, 70)), ..Tracer::default() };
    store.set_tracer(3, tracer);
    assert_eq!(run(&mut image, &[undirty(1)]), [(0, 0)]);
    let left = Image::of(&image).unwrap();
    assert_eq!((left.card(1), left.tracer(3)), (2, tracer));
    assert_eq!(run(&mut image, &[clean(3), clean(3)]), [(0, 0), (11, 0)]);
}

/// A card that a player owes may be wiped: the barrier turns it dirty again.
#[test]
fn an_owed_card() {
    let mut image = fresh_image(1);
    let list = [begin(), new(0, 0, 1, 1), hand(0, 0, 1, 0), store(0, 0, 0, 0), barrier(0), store(1, 0, 0, 0)];
    assert!(run(&mut image, &list).iter().all(|&(number, _)| number == 0));
    assert_eq!(run(&mut image, &[undirty(0)]), [(0, 0)]);
    assert_eq!((states(&image), Image::of(&image).unwrap().owed_card(1)), (vec![0], Some(0)));
    assert_eq!(run(&mut image, &[undirty(0), barrier(1), undirty(0)]), [(11, 0), (0, 0), (0, 0)]);
}

/// Whether a case tells a wrong rule: an answer differs, or the image that is left. What comes after another answer is not run: it
/// may be a finish on an image without Cover.
fn is_told(placing: Placing, case: &Case, wrong: Alter) -> bool {
    match case {
        Case::Batch(case) if case.result == 0 => {
            let mut image = case.image.clone();
            let mut answers = records(&case.steps).zip(case.given.chunks(2));
            answers.any(|(record, given)| altered_step(placing, &mut image, record, wrong) != given)
                || image != case.left
        }
        Case::Finish(case) => {
            let mut image = case.image.clone();
            altered_step(placing, &mut image, finish(), wrong) != [0, case.value] || image != case.left
        }
        _ => false,
    }
}

fn altered_step(placing: Placing, image: &mut [u16], record: Record, wrong: Alter) -> [u16; 2] {
    let got = image.to_vec();
    let (number, value) = step_by(placing, &mut Store::of(image).unwrap(), record);
    let mut answer = [number, value];
    wrong(&mut Done { got: &got, record, image, answer: &mut answer });
    answer
}

/// Whether a judge that takes any count would take what the case calls damaged.
fn tells_any_count(case: &Case) -> bool {
    let Case::Batch(case) = case else { return false };
    let mut counted = case.image.clone();
    if case.result == 2 {
        Store::of(&mut counted).unwrap().count_marks();
    }
    case.result == 2 && judge(&counted) == 0
}

/// Cases that tell each wrong rule, then those that tell a judge that takes any count.
fn told(placing: Placing, cases: &[Case]) -> Vec<usize> {
    let told = |wrong: &Alter| cases.iter().filter(|case| is_told(placing, case, *wrong)).count();
    let by_judge = cases.iter().filter(|case| tells_any_count(case)).count();
    WRONG_WIPING.iter().map(told).chain([by_judge]).collect()
}

/// Accepted undirty steps, those refused with 11, and images with a wrong count.
fn shown(cases: &[Case]) -> [usize; 3] {
    let batches = batch_cases(cases);
    let accepted = batches.iter().filter(|case| case.result == 0);
    let steps: Vec<(u8, u16)> = accepted
        .flat_map(|case| records(&case.steps).zip(case.given.chunks(2)))
        .map(|(record, answer)| (record.kind, answer[0]))
        .collect();
    let with = |number| steps.iter().filter(|&&step| step == (UNDIRTY, number)).count();
    [with(0), with(11), cases.iter().filter(|case| tells_any_count(case)).count()]
}

#[test]
fn right_rules_are_told_by_no_case() {
    assert!(draw(15, 500).iter().all(|case| !is_told(Placing::Tightest, case, |_| ())));
}

/// The outside vectors have no image whose only damage is a count. They are by the lowest run.
#[test]
fn the_vectors_tell_wrong_rules() {
    let cases = parse_batches(include_str!("../../vectors/document_02/02-ii.txt")).unwrap();
    let cases: Vec<Case> = cases.into_iter().map(Case::Batch).collect();
    assert!(cases.iter().all(|case| !is_told(Placing::Lowest, case, |_| ())));
    let told = told(Placing::Lowest, &cases);
    assert!(told[..WRONG_WIPING.len()].iter().all(|&told| told >= 5), "{told:?}");
}

#[test]
fn drawn_cases_tell_wrong_rules() {
    let cases = draw(14, 2000);
    let (told, shown) = (told(Placing::Tightest, &cases), shown(&cases));
    println!("{told:?}, {shown:?}");
    assert!(told.iter().all(|&told| told >= 20), "{told:?}");
    assert!(shown.iter().all(|&shown| shown >= 50), "{shown:?}");
}

#[test]
fn the_cases_of_the_gate_tell_wrong_rules() {
    let cases = cases_of_the_gate();
    let (told, shown) = (told(Placing::Tightest, &cases), shown(&cases));
    assert!(told.iter().chain(&shown).all(|&seen| seen >= 1), "{told:?}, {shown:?}");
}
