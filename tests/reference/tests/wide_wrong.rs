//! Wrong wide stores: the cases must tell those that misread a record, and the whole-list check must say what is wrong with those that cut a
//! granule number.

use crate::common::altered::*;
use crate::common::misread::Misread;
use crate::common::*;
use reference::generate::{batches_of, list, Pace};
use reference::made::{fresh_image, spread};
use reference::random::Random;
use reference::vectors::{parse_wide, BatchCase};
use reference::wide::cases::cases;
use reference::width::{Places, Width};
use reference::{batch, judge, whole_list};

/// Of the wrong stores those that no case tells.
fn untold(cases: &[BatchCase<u32>]) -> Vec<Misread> {
    let is_untold = |wrong: &Misread| cases.iter().all(|case| !wrong.is_told_by(case));
    Misread::all().filter(is_untold).collect()
}

#[test]
fn the_cases_of_the_gate_tell_misread_records() {
    let untold = untold(&wide_cases_of_the_gate());
    assert!(untold.is_empty(), "{untold:?}");
}

#[test]
fn drawn_cases_tell_misread_records() {
    for seed in 0..20 {
        let untold = untold(&cases(seed, 9).collect::<Vec<_>>());
        assert!(untold.len() <= 3, "seed {seed}: {untold:?}");
    }
}

/// The outside vectors have few such records, but some for every byte that may be misread.
#[test]
fn the_vectors_tell_misread_records() {
    let cases = parse_wide(include_str!("../../vectors/document_02/09-ix.txt")).unwrap();
    let told = |what| {
        Misread::all().filter(|wrong| wrong.what == what && cases.iter().any(|case| wrong.is_told_by(case))).count()
    };
    assert_eq!(["third byte", "fourth byte", "a cut", "b cut", "c cut"].map(told), [1, 2, 1, 2, 4]);
}

/// A judge that looks at low halves only takes what is damaged in a high half.
#[test]
fn a_judge_of_low_halves() {
    let low = |image: &[u32]| judge(&image.iter().map(|&word| word & 0xffff).collect::<Vec<u32>>());
    let told = |cases: &[BatchCase<u32>]| cases.iter().filter(|case| low(&case.image) != judge(&case.image)).count();
    assert!(told(&wide_cases_of_the_gate()) >= 1);
    assert!(told(&cases(7, 90).collect::<Vec<_>>()) >= 10);
}

/// Images and batches for them.
type Lists = Vec<(Vec<u32>, Vec<(Vec<u8>, usize)>)>;

/// One of the lists at least must be found wrong, and none that the right store runs.
fn assert_caught(what: &str, lists: &Lists, wrong: impl Fn(&mut [u32], &[u8], &mut [u32]) -> u16) {
    assert!(lists.iter().any(|(image, batches)| whole_list(image, batches, &wrong).is_err()), "{what}");
}

fn assert_right(lists: &Lists) {
    for (image, batches) in lists {
        whole_list(image, batches, batch).unwrap();
    }
}

/// Of the players' records, the begin and the finish, undirty and due, each that is misread. Of the tracers' records the check holds the zero bytes
/// to be zero; their fields are told by the cases.
#[test]
fn the_check_tells_misread_records() {
    let drawn = (0..6).flat_map(|seed| cases(seed, 4));
    let lists: Lists = drawn.map(|case| (case.image, vec![(case.steps, case.answers)])).collect();
    assert_right(&lists);
    for wrong in Misread::all().filter(|wrong| !(10..=12).contains(&wrong.kind) || wrong.what.ends_with("byte")) {
        let run = |image: &mut [u32], steps: &[u8], answers: &mut [u32]| wrong.batch(image, steps, answers);
        assert_caught(&format!("{wrong:?}"), &lists, run);
    }
}

/// Lists on stores of more than 65,536 granules. In the first, objects of 1,024 granules take the first 65,536, and what is new lies above them.
fn far_lists() -> Lists {
    let large = (0..64).map(|n| step_of(NEW, n / 16, n % 16, 1024, 1));
    let small = [step_of(NEW, 5, 0, 1, 1), step_of(NEW, 5, 1, 2, 0), step_of(BEGIN, 0, 0, 0, 0)];
    let finish = [step_of(FINISH, 0, 0, 0, 0), step_of(NEW, 5, 2, 1, 0)];
    let steps = bytes(&large.chain(small).chain(finish).collect::<Vec<_>>());
    let answers = steps.len() / 8;
    let mut lists = vec![(fresh_image(1_026), vec![(steps, answers)])];
    for seed in 0..5 {
        let mut random = Random::new(300 + seed);
        let image = spread(&mut random, 1_100);
        let pace = Pace { wild: 10, finish: 4, tracers: 60, undirty: 20 };
        let steps = list(&mut random, &mut image.clone(), 50, pace);
        lists.push((image, batches_of::<u32>(&mut random, &steps)));
    }
    lists
}

fn step_of(kind: u8, who: usize, a: usize, b: usize, c: usize) -> RecordOf<u32> {
    RecordOf::of(kind, who, a, b, c)
}

/// The first and the last word, but one, of a part of the image.
type Part = fn(<u32 as Width>::Layout) -> [usize; 2];

const PARTS: [(&str, Part); 5] = [
    ("heap", |layout| [0, layout.start_bits()]),
    ("registers", |layout| [layout.register(0, 0), layout.packet(0)]),
    ("packets", |layout| [layout.packet(0), layout.tracer(0)]),
    ("tracers", |layout| [layout.tracer(0), layout.player(0)]),
    ("general", |layout| [layout.general(), layout.length()]),
];

/// A store that writes numbers of so many bits into one part of its image.
#[test]
fn the_check_tells_granules_that_are_cut() {
    let lists = far_lists();
    assert_right(&lists);
    for (what, part) in PARTS {
        for bits in [15, 16] {
            let alter = |done: &mut Done<u32>| {
                let [from, to] = part(done.got().layout);
                let written = (from..to).filter(|&at| done.image[at] != done.got[at]).collect::<Vec<_>>();
                written.into_iter().for_each(|at| done.image[at] &= (1 << bits) - 1);
            };
            let wrong =
                |image: &mut [u32], steps: &[u8], answers: &mut [u32]| altered_batch(image, steps, answers, &alter);
            assert_caught(&format!("{what}, {bits} bits"), &lists, wrong);
        }
    }
}

#[test]
fn the_check_tells_values_that_are_cut() {
    let lists = far_lists();
    for bits in [15, 16] {
        let alter = |done: &mut Done<u32>| done.answer[1] &= (1 << bits) - 1;
        let wrong = |image: &mut [u32], steps: &[u8], answers: &mut [u32]| altered_batch(image, steps, answers, &alter);
        assert_caught(&format!("values, {bits} bits"), &lists, wrong);
    }
}
