//! Where a new goes, by document 02, (v): "the start of the shortest run that suffices, the lowest of equals".

use crate::common::*;
use reference::cases::otherwise_by_lowest;
use reference::image::{Image, Store};
use reference::made::fresh_image;
use reference::steps::step as run_step;
use reference::vectors::{parse_batches, BatchCase};

/// A store of one card with runs of these lengths, an object of one granule behind each, and no other run.
fn with_runs(lengths: &[u16]) -> Vec<u16> {
    let sizes: Vec<u16> = lengths.iter().flat_map(|&length| [length, 1]).collect();
    let rest = 63 - sizes.iter().sum::<u16>();
    let mut list: Vec<Record> = (0..).zip(&sizes).map(|(n, &size)| new(n as u8 / 16, n % 16, size, 0)).collect();
    list.push(new(15, 0, rest, 0));
    list.extend((0..sizes.len() as u16).step_by(2).map(|n| drop(n as u8 / 16, n % 16)));
    list.extend([begin(), finish()]);
    let mut image = fresh_image(1);
    assert!(run(&mut image, &list).iter().all(|&(number, _)| number == 0));
    image
}

fn runs(image: &[u16]) -> Vec<(usize, usize)> {
    Image::of(image).unwrap().runs().collect()
}

/// Equal lengths, and a longer run below a shorter one.
const LENGTHS: [u16; 5] = [5, 3, 5, 2, 3];

#[test]
fn by_size() {
    let image = with_runs(&LENGTHS);
    assert_eq!(runs(&image), [(1, 5), (7, 3), (11, 5), (17, 2), (20, 3)]);
    for (size, answer) in [(1, (0, 17)), (2, (0, 17)), (3, (0, 7)), (4, (0, 1)), (5, (0, 1)), (6, (9, 0))] {
        assert_eq!(run(&mut image.clone(), &[new(0, 0, size, 0)]), [answer], "size {size}");
    }
}

/// Each takes from what those before have left, and the chain stays in order.
#[test]
fn one_after_the_other() {
    let mut image = with_runs(&LENGTHS);
    assert_eq!(run(&mut image, &[new(0, 0, 3, 0), new(0, 0, 3, 0), new(0, 0, 3, 0)]), [(0, 7), (0, 20), (0, 1)]);
    assert_eq!(runs(&image), [(4, 2), (11, 5), (17, 2)]);
    assert_eq!(run(&mut image, &[new(0, 0, 1, 0), new(0, 0, 1, 0), new(0, 0, 2, 0)]), [(0, 4), (0, 5), (0, 17)]);
    assert_eq!(runs(&image), [(11, 5)]);
    assert_eq!(run(&mut image, &[new(0, 0, 5, 0), new(0, 0, 1, 0)]), [(0, 11), (9, 0)]);
    assert_eq!(runs(&image), []);
}

/// "Long runs get nibbled by small palettes": the long one is below, and stays whole for a long cue.
#[test]
fn a_long_run_is_not_nibbled() {
    let mut image = with_runs(&[30, 2, 4]);
    let palettes = [new(0, 0, 2, 0), new(0, 0, 4, 0)];
    assert_eq!(run(&mut image, &palettes), [(0, 32), (0, 35)]);
    assert_eq!(run(&mut image, &[new(0, 0, 30, 0)]), [(0, 1)]);
}

/// A rule of placing: the run that a new of that size takes from, if it finds one.
type Rule = fn(&[(usize, usize)], usize) -> Option<(usize, usize)>;

/// The first that suffices; the highest of equals; the longest; a run of just that size is passed over.
const WRONG: [(&str, Rule); 4] = [
    ("first", |runs, size| sufficing(runs, size).next()),
    ("highest of equals", |runs, size| sufficing(runs, size).rev().min_by_key(|&(_, length)| length)),
    ("longest", |runs, size| sufficing(runs, size).rev().max_by_key(|&(_, length)| length)),
    ("exact passed over", |runs, size| sufficing(runs, size + 1).min_by_key(|&(_, length)| length)),
];

fn sufficing(runs: &[(usize, usize)], size: usize) -> impl DoubleEndedIterator<Item = (usize, usize)> + '_ {
    runs.iter().copied().filter(move |&(_, length)| length >= size)
}

/// For each wrong rule, whether an accepted new of the case would go elsewhere by it.
fn told(case: &BatchCase) -> [bool; 4] {
    let mut image = case.image.clone();
    let mut store = Store::of(&mut image).unwrap();
    let mut told = [false; 4];
    for (record, answer) in records(&case.steps).zip(case.given.chunks(2)) {
        if record.kind == NEW && answer[0] == 0 {
            let runs: Vec<(usize, usize)> = store.image().runs().collect();
            for ((_, rule), told) in WRONG.iter().zip(&mut told) {
                *told |= rule(&runs, record.b()).is_none_or(|(granule, _)| granule != usize::from(answer[1]));
            }
        }
        run_step(&mut store, record);
    }
    told
}

/// So many cases at least tell each of them.
fn assert_told(cases: &[&BatchCase], at_least: usize) {
    let mut all = WRONG.map(|(name, _)| (name, 0));
    for case in cases.iter().filter(|case| case.result == 0) {
        all.iter_mut().zip(told(case)).for_each(|((_, all), told)| *all += usize::from(told));
    }
    assert!(all.iter().all(|&(_, told)| told >= at_least), "{all:?}");
}

#[test]
fn the_vectors_tell_wrong_rules() {
    let cases = parse_batches(include_str!("../../vectors/document_02/05-v.txt")).unwrap();
    assert_told(&cases.iter().collect::<Vec<_>>(), 5);
}

#[test]
fn drawn_cases_tell_wrong_rules() {
    assert_told(&batch_cases(&draw(14, 2000)), 50);
}

#[test]
fn the_cases_of_the_gate_tell_wrong_rules() {
    assert_told(&batch_cases(&cases_of_the_gate()), 1);
}

/// `rows` prints a batch by the lowest run too where that makes a difference: some of the gate's, and not many, for the checker's time.
#[test]
fn cases_of_the_gate_by_the_lowest_run() {
    let cases = cases_of_the_gate();
    let otherwise = batch_cases(&cases).into_iter().filter_map(otherwise_by_lowest).count();
    assert!((2..=4).contains(&otherwise), "{otherwise}");
}
