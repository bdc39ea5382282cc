//! Due by document 02, (i): "only runs of 8 granules or more count. Step 14 gives 1 if the granules in such runs are fewer than a."

use crate::common::*;
use reference::image::{Image, Store};
use reference::made::fresh_image;
use reference::steps::step_by;
use reference::vectors::{parse_batches, parse_older_batches, BatchCase};
use reference::Placing;

/// What due says of an image.
fn due_of(image: &[u16], wanted: u16) -> (u16, u16) {
    run(&mut image.to_vec(), &[step(DUE, 0, wanted, 0, 0)])[0]
}

/// One card, with one run at its end that has so many granules.
fn ending_in_run(length: u16) -> Vec<u16> {
    let mut image = fresh_image(1);
    run(&mut image, &[new(0, 0, 63 - length, 0)]);
    image
}

#[test]
fn a_run_of_8_counts_and_one_of_7_does_not() {
    for (length, usable) in [(1, 0), (7, 0), (8, 8), (9, 9), (62, 62)] {
        let image = ending_in_run(length);
        if usable > 0 {
            assert_eq!(due_of(&image, usable - 1), (0, 0), "{length}");
        }
        assert_eq!(due_of(&image, usable), (0, 0), "{length}");
        assert_eq!(due_of(&image, usable + 1), (0, 1), "{length}");
        assert_eq!(due_of(&image, 0), (0, 0), "{length}");
        assert_eq!(due_of(&image, 65_535), (0, 1), "{length}");
    }
}

#[test]
fn long_runs_add_up_and_short_ones_do_not() {
    // Objects of these sizes, of which every other one is let go and freed: runs of 8, 7, 9 and 1, and what is left of the card, 24.
    let sizes = [8, 1, 7, 2, 9, 3, 1, 8];
    let mut list: Vec<Record> = (0..).zip(sizes).map(|(register, size)| new(0, register, size, 0)).collect();
    list.extend((0..8).step_by(2).map(|register| drop(0, register)));
    list.extend([begin(), finish()]);
    let mut image = fresh_image(1);
    let answers = run(&mut image, &list);
    assert_eq!(answers.last(), Some(&(0, 8 + 7 + 9 + 1)));
    let usable = 8 + 9 + 24;
    assert_eq!(due_of(&image, usable), (0, 0));
    assert_eq!(due_of(&image, usable + 1), (0, 1));
}

/// A desk that said "not due" and then refused a long cue.
#[test]
fn many_single_granules() {
    let mut list: Vec<Record> = (0..63).map(|n| new((n / 16) as u8, n % 16, 1, 0)).collect();
    list.extend((0..63).step_by(2).map(|n| drop((n / 16) as u8, n % 16)));
    list.extend([begin(), finish()]);
    let mut image = fresh_image(1);
    assert_eq!(run(&mut image, &list).last(), Some(&(0, 32)));
    assert_eq!(due_of(&image, 1), (0, 1));
    assert_eq!(run(&mut image, &[new(0, 0, 2, 0)]), [(9, 0)]);
}

/// Rules that are not the one: every run counts, the limit is off by one, "fewer" is taken for "no more".
const WRONG: [(usize, usize); 4] = [(1, 0), (7, 0), (9, 0), (8, 1)];

/// By how many dues of the case each of these is told from the right one.
fn told(placing: Placing, case: &BatchCase) -> [usize; 4] {
    let mut image = case.image.clone();
    let mut store = Store::of(&mut image).unwrap();
    let mut told = [0; 4];
    for (record, answer) in records(&case.steps).zip(case.given.chunks(2)) {
        if record.kind == DUE && answer[0] == 0 {
            for ((least, more), told) in WRONG.iter().zip(&mut told) {
                let says = counted(store.image(), *least) < usize::from(record.a) + more;
                *told += usize::from(u16::from(says) != answer[1]);
            }
        }
        step_by(placing, &mut store, record);
    }
    told
}

fn counted(image: Image, least: usize) -> usize {
    image.runs().map(|(_, length)| length).filter(|&length| least <= length).sum()
}

fn assert_told(placing: Placing, cases: &[&BatchCase], at_least: usize) {
    let mut all = [0; 4];
    for case in cases.iter().filter(|case| case.result == 0) {
        all.iter_mut().zip(told(placing, case)).for_each(|(all, told)| *all += told);
    }
    assert!(all.iter().all(|&told| told >= at_least), "{all:?}");
}

/// These vectors are by the lowest run.
#[test]
fn the_vectors_tell_wrong_rules() {
    let (cases, _) = parse_older_batches(include_str!("../../vectors/document_02/01-i.txt")).unwrap();
    assert_told(Placing::Lowest, &cases.iter().collect::<Vec<_>>(), 5);
    let cases = parse_batches(include_str!("../../vectors/document_02/04-iv.txt")).unwrap();
    assert_told(Placing::Lowest, &cases.iter().collect::<Vec<_>>(), 5);
}

#[test]
fn drawn_cases_tell_wrong_rules() {
    assert_told(Placing::Tightest, &batch_cases(&draw(14, 2000)), 50);
}

#[test]
fn the_cases_of_the_gate_tell_wrong_rules() {
    assert_told(Placing::Tightest, &batch_cases(&cases_of_the_gate()), 1);
}
