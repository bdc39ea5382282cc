//! Document 02, (vii): how many trace and clean steps a cycle accepts. The count by hand, the worked examples, lists that reach what can be reached,
//! and lists that make a cycle drag on.

use crate::common::*;
use reference::cases::cycles;
use reference::dragging::{lists, longest, sizes, worked_example, Shown};
use reference::events::{events, Event, Events};
use reference::image::{Store, Tracer};
use reference::made::{fresh_image, linked};
use reference::random::Random;
use reference::vectors::BatchCase;
use reference::work::{at_most, at_most_sharper, check_work, work_in, Cycles, Most, Work};
use reference::{batch, judge, whole_list, Counts};

/// Records with the numbers that they are answered, whatever a store would say to them.
fn answered(records: &[(Record, u16)]) -> Events {
    let event = |&(record, number): &(Record, u16)| Event { bytes: bytes(&[record]), number, value: 0 };
    Events { results: vec![0], records: records.iter().map(event).collect() }
}

fn works(events: &Events) -> Vec<Work> {
    Cycles::of(events).works().collect()
}

/// What comes before the first begin is of no cycle of the list, and what comes behind a finish neither. Refused ones do not count, and refused
/// begins and finishes end nothing.
#[test]
fn counted_from_the_answers() {
    let before = [(trace(0), 0), (clean(1), 0), (finish(), 0), (trace(0), 0)];
    let first = [(begin(), 0), (trace(0), 0), (trace(1), 11), (clean(7), 0), (clean(7), 11), (scan(0, 0), 0)];
    let more =
        [(begin(), 10), (trace(2), 0), (finish(), 3), (step(CLEAN, 0, 1, 0, 0), 3), (trace(8), 4), (trace(7), 0)];
    let after = [(finish(), 0), (trace(0), 0), (clean(0), 0), (begin(), 0), (clean(0), 0), (undirty(0), 0)];
    let list = [&before[..], &first, &more, &after].concat();
    assert_eq!(works(&answered(&list)), [Work { traces: 3, cleans: 1 }, Work { traces: 0, cleans: 1 }]);
    assert_eq!(works(&answered(&before)), []);
    assert_eq!(works(&answered(&[])), []);
}

/// A begin that were accepted in a cycle would end no stretch "up to the next accepted finish".
#[test]
fn counted_from_the_first_begin() {
    let list = [(begin(), 0), (trace(0), 0), (begin(), 0), (trace(0), 0), (finish(), 0)];
    assert_eq!(works(&answered(&list)), [Work { traces: 2, cleans: 0 }]);
}

#[test]
fn the_figures() {
    for k in [1, 2, 512] {
        let figures = (at_most_sharper(k), at_most(k));
        assert_eq!(figures, (514 * k, 768 * k));
        let check = |work: usize| {
            let list =
                [vec![(begin(), 0)], [(trace(0), 0), (clean(0), 0)].repeat(work / 2), vec![(trace(0), 0); work % 2]];
            check_work(&fresh_image(k), &answered(&list.concat()))
        };
        assert_eq!(check(figures.0), Ok(Most { accepted: figures.0, percent: 100 }));
        for (work, figure) in
            [(figures.0 + 1, "8 × G + 2 × k"), (figures.1, "8 × G + 2 × k"), (figures.1 + 1, "12 × G")]
        {
            assert!(check(work).unwrap_err().contains(&format!("{work} trace and clean steps, over {figure} = ")));
        }
    }
}

/// The work of a list that is one batch on that image, with one cycle.
fn work_of(image: &[u16], steps: &[u8]) -> Work {
    let events = events(image, &[(steps.to_vec(), steps.len() / 4)], batch);
    check_work(image, &events).unwrap();
    match works(&events)[..] {
        [work] => work,
        ref works => panic!("{} cycles", works.len()),
    }
}

/// A cue of 63 granules and 250 links: a packet, an entry and the links are traced; the card, the cue, the links and the card's end are cleaned.
#[test]
fn a_cue_of_250_links() {
    let steps = worked_example();
    let work = work_of(&fresh_image(1), &steps);
    assert_eq!((work, work.accepted()), (Work { traces: 252, cleans: 253 }, 505));
    assert_eq!((at_most_sharper(1), at_most(1)), (514, 768));
    let answers = run(&mut fresh_image(1), &records(&steps).collect::<Vec<_>>());
    let refused = (0..answers.len()).filter(|&place| answers[place].0 != 0);
    assert_eq!(refused.map(|place| (place, answers[place].0)).collect::<Vec<_>>(), [(255, 11), (511, 11)]);
}

/// An object of one granule and two links.
#[test]
fn an_object_of_two_links() {
    let list = [
        &[new(0, 0, 1, 2), trace(0), begin(), scan(0, 0)],
        &[trace(0); 5][..],
        &[store(0, 0, 0, 1), barrier(0)],
        &[clean(0); 6],
    ];
    let list = list.concat();
    assert_eq!(work_of(&fresh_image(1), &bytes(&list)), Work { traces: 4, cleans: 5 });
    let answers = on_one_card(&list);
    let refused = (0..answers.len()).filter(|&place| answers[place].0 != 0);
    assert_eq!(refused.map(|place| (place, answers[place].0)).collect::<Vec<_>>(), [(1, 10), (8, 11), (16, 11)]);
}

/// Full stores with an object on every card: 8 × (G − 1) − objects + 2 × k steps.
#[test]
fn the_longest_cycles() {
    for k in [1, 2, 3, 16, 512] {
        // The objects start at granules 1, 64, 128 and so on.
        let sizes: Vec<usize> = (0..k).map(|card| if card == 0 { 63 } else { 64 }).collect();
        let work = work_of(&fresh_image(k), &longest(k, &sizes)).accepted();
        assert_eq!(work, 8 * (64 * k - 1) - k + 2 * k, "{k} cards");
        assert_eq!(work, at_most_sharper(k) - 8 - k);
    }
    let mut random = Random::new(7);
    for round in 0..60 {
        let k = 1 + round % 6;
        let sizes = sizes(&mut random, k);
        let work = work_of(&fresh_image(k), &longest(k, &sizes)).accepted();
        assert_eq!(work, 8 * (64 * k - 1) - sizes.len() + 2 * k, "{sizes:?}");
    }
}

/// One object fills the store. The other cards, on which none starts, are owed by players: 9 less than the sharper figure, the most that there is.
#[test]
fn the_longest_cycles_with_owed_cards() {
    for k in [1, 2, 7, 16] {
        let size = 64 * k - 1;
        let mut image = linked(k, size, 4 * size - 2, Some(0), |_, _| usize::MAX);
        (1..k).for_each(|card| Store::of(&mut image).unwrap().set_owed(card, Some(card)));
        let barriers: Vec<Record> = (0..k as u8).map(barrier).collect();
        let list = [
            &[begin(), scan(0, 0)],
            &vec![trace(0); 4 * size + 1][..],
            &[store(0, 0, 0, 0)],
            &barriers,
            &vec![clean(0); 4 * size + 2 * k],
        ];
        let work = work_of(&image, &bytes(&list.concat()));
        assert_eq!(work, Work { traces: 4 * size, cleans: 4 * size - 1 + 2 * k });
        assert_eq!(work.accepted(), at_most_sharper(k) - 9);
    }
}

/// Eight tracers hold one cue in the first image, so that its links are traced eight times: more than 12 × G, in a cycle that has no begin here.
#[test]
fn a_list_from_the_middle_of_a_cycle() {
    let mut image = linked(1, 63, 250, Some(0), |_, _| usize::MAX);
    let mut store = Store::of(&mut image).unwrap();
    store.mark(1);
    store.set_running(true);
    (0..8).for_each(|t| store.set_tracer(t, Tracer { hand: Some((1, 0)), ..Tracer::default() }));
    assert_eq!(judge(&image), 0);
    let first: Vec<Record> = (0..8).flat_map(|t| vec![trace(t); 250]).collect();
    let second = [finish(), begin(), scan(0, 0), trace(0), trace(0), trace(0)];
    let steps = bytes(&[&first[..], &second].concat());
    let counts = whole_list(&image, &[(steps.clone(), steps.len() / 4)], batch).unwrap();
    assert_eq!((counts.accepted[usize::from(TRACE)], counts.work.accepted), (2_003, 3));
}

#[test]
fn lists_that_drag_on() {
    let (mut counts, mut shown) = (Counts::default(), Shown::default());
    for list in lists() {
        counts.add(&whole_list(&list.image, &list.batches, batch).unwrap());
        shown.count(&list);
    }
    println!("{counts:?}\n{shown:?}");
    assert!(shown.is_worth_running(), "{shown:?}");
    assert!(counts.work.accepted > 2_500 && counts.work.percent >= 99, "{:?}", counts.work);
    assert!((1..=15).all(|kind| counts.accepted[kind] > 0), "a kind was never accepted");
    assert!((3..=11).all(|number| counts.numbers[number] > 0), "a number was never given");
    assert!(counts.unknown_kinds > 20 && counts.refused_batches > 1_000 && counts.without_packet > 100, "{counts:?}");
    assert!(counts.wiped.dirty > 50 && counts.wiped.dirty_and_taken > 1_000, "{:?}", counts.wiped);
}

/// Countings that are not the one: of traces alone, of cleans alone, of refused ones too.
const WRONG: [fn(&BatchCase) -> usize; 3] = [
    |case| work_in(&case.steps, &case.given).traces,
    |case| work_in(&case.steps, &case.given).cleans,
    |case| records(&case.steps).filter(|record| matches!(record.kind, TRACE | CLEAN)).count(),
];

/// In how many of the cases each of these is told from the right one.
fn told(cases: &[BatchCase]) -> [usize; 3] {
    let is_told =
        |case: &&BatchCase, wrong: fn(&BatchCase) -> usize| wrong(case) != work_in(&case.steps, &case.given).accepted();
    WRONG.map(|wrong| cases.iter().filter(|case| is_told(case, wrong)).count())
}

/// The checker computes the model's count of these.
#[test]
fn the_cycles_of_the_gate_tell_wrong_counts() {
    let told = told(&cycles_of_the_gate());
    assert!(told.iter().all(|&told| told >= 1), "{told:?}");
}

#[test]
fn drawn_cycles_tell_wrong_counts() {
    let cases: Vec<BatchCase> = cycles(1, 400).collect();
    assert!(cases.iter().all(|case| case.result == 0));
    let told = told(&cases);
    assert!(told.iter().all(|&told| told >= 100), "{told:?}");
}
