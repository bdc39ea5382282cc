//! The cases that `draw` prints: they parse, repeat by seed and show every kind and number.

use std::collections::{BTreeMap, BTreeSet};

use crate::common::*;
use reference::cards_of_length;
use reference::cases::maps;
use reference::image::Image;
use reference::judge::{first_damage, Line};
use reference::layout::{card_of, CARD_GRANULES};
use reference::reports::reports;
use reference::vectors::{parse, print, Case, FinishCase, ReportCase};
use reference::{scratch_words, undamaged_but_cover};

fn finish_cases(cases: &[Case]) -> Vec<&FinishCase> {
    let mut finishes = Vec::new();
    for case in cases {
        if let Case::Finish(finish) = case {
            finishes.push(finish);
        }
    }
    finishes
}

#[test]
fn a_seed_gives_the_same_cases() {
    let cases = draw(5, 50);
    assert_eq!(cases, draw(5, 50));
    assert_ne!(cases, draw(6, 50));
    let printed: String = cases.iter().map(print).collect();
    assert_eq!(parse(&printed).unwrap(), cases);
}

#[test]
fn a_seed_gives_the_same_maps() {
    let cases = |seed| maps(seed, 40).map(Case::Map).collect::<Vec<_>>();
    assert_eq!(cases(5), cases(5));
    assert_ne!(cases(5), cases(6));
    let printed: String = cases(5).iter().map(print).collect();
    assert_eq!(parse(&printed).unwrap(), cases(5));
}

/// Half of the maps are drawn, a quarter are misfits and a quarter damaged.
#[test]
fn maps_show_every_result() {
    for result in 0..3 {
        let alike = maps(4, 400).filter(|case| case.result == result);
        assert_eq!(alike.count(), [200, 100, 100][usize::from(result)], "result {result}");
    }
    let lengths = maps(4, 400).filter(|case| cards_of_length(case.image.len()).is_none());
    assert!(lengths.count() >= 10);
}

#[test]
fn a_seed_gives_the_same_reports() {
    let cases = |seed| reports(seed, 64).map(Case::Report).collect::<Vec<_>>();
    assert_eq!(cases(5), cases(5));
    assert_ne!(cases(5), cases(6));
    let printed: String = cases(5).iter().map(print).collect();
    assert_eq!(parse(&printed).unwrap(), cases(5));
}

/// Every number often, in many cases and in the few of the gate; and misfits of each of the four slices, with a scratch of G words among them.
#[test]
fn reports_show_every_result() {
    let results = |cases: &[ReportCase]| {
        let mut results = BTreeMap::new();
        cases.iter().for_each(|case| *results.entry(case.result).or_insert(0) += 1);
        results
    };
    let cases: Vec<ReportCase> = reports(4, 3_200).collect();
    let seen = results(&cases);
    assert_eq!(seen.keys().copied().collect::<Vec<_>>(), [0, 1, 2, 12, 13, 14]);
    assert!(seen.values().all(|&cases| cases >= 200), "{seen:?}");
    assert_eq!(results(&reports_of_the_gate()).len(), 6);
    let fits = |words: &[u16]| cards_of_length(words.len()).is_some();
    let misfits: [fn(&ReportCase) -> bool; 5] = [
        |case| !case.report.len().is_multiple_of(4),
        |case| case.scratch.len() != scratch_words(1),
        |case| case.first.len() != case.second.len(),
        |case| case.result == 1 && case.first.len() == case.second.len(),
        |case| case.result == 1 && case.report.len().is_multiple_of(4) && case.scratch.len() == scratch_words(1),
    ];
    assert!(misfits.iter().all(|is_misfit| cases.iter().filter(|case| is_misfit(case)).count() >= 20));
    let g_words = |cases: &[ReportCase]| cases.iter().filter(|case| case.scratch.len() == CARD_GRANULES).count();
    assert!(g_words(&cases) >= 20 && g_words(&reports_of_the_gate()) >= 1);
    let one_fits = |test: fn(bool, bool) -> bool| cases.iter().any(|case| test(fits(&case.first), fits(&case.second)));
    assert!(one_fits(|first, second| first && !second) && one_fits(|first, second| second && !first));
}

#[test]
fn batches_show_every_kind_and_number() {
    let cases = draw(1, 2000);
    let batches = batch_cases(&cases);
    for result in 0..3 {
        assert!(batches.iter().filter(|case| case.result == result).count() >= 50, "result {result}");
    }
    let accepted = batches.iter().filter(|case| case.result == 0);
    let shown: BTreeSet<(u8, u16)> = accepted
        .flat_map(|case| records(&case.steps).zip(case.given.chunks(2)))
        .map(|(record, answer)| (record.kind, answer[0]))
        .collect();
    assert!((1..=15).all(|kind| shown.contains(&(kind, 0))), "{shown:?}");
    assert!((3..=11).all(|number| shown.iter().any(|&(_, n)| n == number)), "{shown:?}");
    assert!([3, 4, 10, 11].iter().all(|&number| shown.contains(&(UNDIRTY, number))), "{shown:?}");
    assert!(shown.iter().any(|&(kind, _)| !(1..=15).contains(&kind)));
    let miscounted = batches.iter().filter(|case| first_damage(&case.image) == Some(Line::Counts));
    assert!(miscounted.count() >= 50);
}

/// Newly marked, entered nowhere, on a card that became dirty: there was no packet for it.
#[test]
fn starved_cases_find_no_packet() {
    let cases = draw(3, 8000);
    let batches = batch_cases(&cases);
    let starved = batches.iter().filter(|case| case.name.ends_with("starved"));
    let without_packet = starved.filter(|case| {
        let (image, left) = (Image::of(&case.image).unwrap(), Image::of(&case.left).unwrap());
        let entered: Vec<usize> = left.entered().collect();
        let newly_marked = |g: &usize| left.is_marked(*g) && !image.is_marked(*g);
        let became_dirty = |c: usize| left.is_dirty(c) && !image.is_dirty(c);
        left.starts().filter(newly_marked).any(|g| !entered.contains(&g) && became_dirty(card_of(g)))
    });
    let count = without_packet.count();
    assert!(count >= 5, "{count}");
}

#[test]
fn finishes_free_and_keep_with_cover_and_without() {
    let cases = draw(2, 2000);
    let finishes = finish_cases(&cases);
    assert!((400..600).contains(&finishes.len()));
    assert!(finishes.iter().all(|case| undamaged_but_cover(&case.image)));
    for cover in [false, true] {
        for frees in [false, true] {
            let alike = finishes.iter().filter(|case| case.cover == cover && (case.value > 0) == frees);
            assert!(alike.count() >= 20, "cover {cover}, frees {frees}");
        }
    }
}
