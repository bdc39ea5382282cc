//! Which packet reach and trace take, and what happens where there is none.

use crate::common::*;
use reference::image::{Image, Store, Tracer};
use reference::layout::{card_of, length, PACKETS};

const CARDS: usize = 16;
/// The last two objects: unmarked, in player 0's first two registers.
const X: usize = 1022;
const Y: usize = 1023;

/// Objects of one granule and one nil link fill the heap; packet n has `counts[n]` of them entered.
fn crowded(counts: [usize; PACKETS], tracers: &[(usize, Tracer)]) -> Vec<u16> {
    let mut words = vec![0; length(CARDS)];
    let mut store = Store::of(&mut words).unwrap();
    (1..64 * CARDS).for_each(|g| store.set_object(g, 1, 1));
    store.set_running(true);
    let mut g = 1;
    for (n, count) in counts.into_iter().enumerate() {
        for _ in 0..count {
            store.mark(g);
            store.append(n, g);
            g += 1;
        }
    }
    tracers.iter().for_each(|&(t, tracer)| store.set_tracer(t, tracer));
    store.set_register(0, 0, X);
    store.set_register(0, 1, Y);
    words
}

fn packets(input: Option<usize>, output: Option<usize>) -> Tracer {
    Tracer { input, output, ..Tracer::default() }
}

fn but(at: &[(usize, usize)], all: usize) -> [usize; PACKETS] {
    let mut counts = [all; PACKETS];
    at.iter().for_each(|&(n, count)| counts[n] = count);
    counts
}

/// The image after a list whose steps are all accepted.
fn after(mut image: Vec<u16>, records: &[Record]) -> Vec<u16> {
    assert!(run(&mut image, records).iter().all(|&(number, _)| number == 0));
    image
}

fn tracer(image: &[u16], t: usize) -> Tracer {
    Image::of(image).unwrap().tracer(t)
}

fn counts(image: &[u16]) -> Vec<usize> {
    (0..PACKETS).map(|n| Image::of(image).unwrap().count(n)).collect()
}

fn marks_and_card(image: &[u16]) -> (bool, bool, usize) {
    let image = Image::of(image).unwrap();
    (image.is_marked(X), image.is_marked(Y), image.card(card_of(X)))
}

#[test]
fn no_packet_to_be_had() {
    for (state, dirty) in [(0, 1), (1, 1), (2, 3), (3, 3)] {
        let mut image = crowded([30; PACKETS], &[]);
        Store::of(&mut image).unwrap().set_card(card_of(X), state);
        let image = after(image, &[scan(0, 0)]);
        assert_eq!(marks_and_card(&image), (true, true, dirty));
        assert_eq!((tracer(&image, 0), counts(&image)), (Tracer::default(), vec![30; PACKETS]));
    }
}

#[test]
fn the_only_free_packets_are_held() {
    let others = [(1, packets(Some(4), Some(5))), (2, packets(None, Some(6)))];
    let image = crowded(but(&[(4, 0), (5, 0), (6, 0)], 30), &others);
    let image = after(image, &[scan(0, 0)]);
    assert_eq!(marks_and_card(&image), (true, true, 1));
    assert_eq!(tracer(&image, 0).output, None);
}

#[test]
fn a_full_output_goes_back() {
    let own = [(0, packets(None, Some(3)))];
    let image = after(crowded([30; PACKETS], &own), &[scan(0, 0)]);
    assert_eq!(marks_and_card(&image), (true, true, 1));
    assert_eq!(tracer(&image, 0).output, None);
    let image = after(crowded(but(&[(9, 7)], 30), &own), &[scan(0, 0)]);
    assert_eq!((marks_and_card(&image), tracer(&image, 0).output), ((true, true, 0), Some(9)));
    assert_eq!(counts(&image), but(&[(9, 9)], 30));
}

#[test]
fn the_last_space_is_used_and_then_there_is_none() {
    let image = after(crowded(but(&[(9, 29)], 30), &[]), &[scan(0, 0)]);
    assert_eq!(marks_and_card(&image), (true, true, 1));
    assert_eq!(counts(&image), [30; PACKETS]);
    assert_eq!(tracer(&image, 0).output, None);
    assert_eq!(Image::of(&image).unwrap().entries(9)[29], X as u16);
}

#[test]
fn a_full_output_stays_where_nothing_is_appended() {
    let mut image = crowded(but(&[(9, 0)], 30), &[(0, packets(None, Some(3)))]);
    let mut store = Store::of(&mut image).unwrap();
    store.set_register(0, 0, 1);
    store.set_register(0, 1, 0);
    let image = after(image, &[scan(0, 0)]);
    assert_eq!(tracer(&image, 0).output, Some(3));
}

#[test]
fn the_emptiest_of_the_lowest_number_is_taken() {
    let others = [(5, packets(Some(0), Some(1)))];
    let counts_before = but(&[(0, 0), (1, 1), (2, 5), (7, 2), (8, 2)], 6);
    let image = after(crowded(counts_before, &others), &[scan(0, 0)]);
    assert_eq!(tracer(&image, 0).output, Some(7));
    assert_eq!(counts(&image)[7], 4);
}

#[test]
fn an_output_with_space_is_kept() {
    let image = crowded(but(&[(3, 27)], 0), &[(0, packets(None, Some(3)))]);
    let image = after(image, &[scan(0, 0)]);
    assert_eq!((tracer(&image, 0).output, counts(&image)[3]), (Some(3), 29));
}

#[test]
fn the_fullest_of_the_lowest_number_becomes_input() {
    let held = [(0, packets(Some(2), Some(3))), (1, packets(Some(4), None))];
    let image = crowded(but(&[(3, 9), (4, 9), (6, 8), (11, 8), (12, 7)], 0), &held);
    let image = after(image, &[trace(0)]);
    assert_eq!(tracer(&image, 0), packets(Some(6), Some(3)));
}

#[test]
fn the_own_output_becomes_input_last() {
    let held = [(0, packets(Some(2), Some(3))), (1, packets(Some(4), None))];
    let mut image = after(crowded(but(&[(3, 1), (4, 9)], 0), &held), &[trace(0)]);
    assert_eq!(tracer(&image, 0), packets(Some(3), None));
    // The entry comes off, its nil link is reached, and then there is nothing to do.
    assert_eq!(run(&mut image, &[trace(0)]), [(0, 0)]);
    assert_eq!(tracer(&image, 0).hand, Some((1, 0)));
    assert_eq!(run(&mut image, &[trace(0), trace(0)]), [(0, 0), (11, 0)]);
    assert_eq!(tracer(&image, 0), packets(Some(3), None));
}

#[test]
fn an_entry_on_a_dirty_card_comes_off_and_is_left_to_clean() {
    for (state, hand) in [(0, Some((2, 0))), (1, None), (2, Some((2, 0))), (3, None)] {
        let mut image = crowded(but(&[(2, 2)], 0), &[(0, packets(Some(2), None))]);
        Store::of(&mut image).unwrap().set_card(0, state);
        let image = after(image, &[trace(0)]);
        assert_eq!((tracer(&image, 0).hand, counts(&image)[2]), (hand, 1), "card state {state}");
    }
}

#[test]
fn an_entry_without_links_comes_off() {
    let mut image = crowded(but(&[(2, 2)], 0), &[(0, packets(Some(2), None))]);
    Store::of(&mut image).unwrap().set_object(2, 1, 0);
    let image = after(image, &[trace(0)]);
    assert_eq!((tracer(&image, 0), counts(&image)[2]), (packets(Some(2), None), 1));
}
