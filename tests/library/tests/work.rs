//! How long a cycle can drag on, by document 02, (vii): the proved library against the second implementation, memory for memory, with the accepted
//! trace and clean steps counted from the library's answers.

use library::compared::{same, Seen};
use reference::cases::evolved;
use reference::dragging::{lists, longest, sizes, some_lists, worked_example, Shown};
use reference::events::List;
use reference::generate::{batches, list_that_drags, Pace};
use reference::made::{bare, far, fresh_image, idle, running};
use reference::random::Random;
use reference::record::RECORD_BYTES;
use reference::work::{at_most, at_most_sharper, work_in, Cycles, Most, Work};
use reference::{cards_of_length, whole_list, Counts};

/// The cycles of a list by both, which must keep both figures.
fn run(list: &List, seen: &mut Seen) -> (Cycles, Most) {
    let (mut image, mut cycles) = (list.image.clone(), Cycles::default());
    for (steps, answer_words) in &list.batches {
        // A refused batch has no answers and adds nothing.
        let answers = same(&mut image, steps, *answer_words, seen);
        let answered = steps.chunks(RECORD_BYTES).zip(answers.chunks(2));
        answered.for_each(|(bytes, answer)| cycles.count(bytes, answer[0]));
    }
    let most = cycles.check(cards_of_length(image.len()).unwrap()).unwrap();
    (cycles, most)
}

/// A cue of 63 granules and 250 links, traced and then cleaned: 505 steps, where 514 and 768 are allowed.
#[test]
fn worked_example_of_505_steps() {
    let steps = worked_example();
    let answers = same(&mut fresh_image(1), &steps, steps.len() / 4, &mut Seen::default());
    let work = work_in(&steps, &answers);
    assert_eq!((work, work.accepted()), (Work { traces: 252, cleans: 253 }, 505));
    assert_eq!((at_most_sharper(1), at_most(1)), (514, 768));
    let refused: Vec<(usize, u16)> =
        answers.chunks(2).map(|answer| answer[0]).enumerate().filter(|&(_, number)| number != 0).collect();
    assert_eq!(refused, [(255, 11), (511, 11)]);
}

/// Full stores with an object on every card, up to the largest store: 8 × (G − 1) − objects + 2 × k steps, and not one more.
#[test]
fn the_longest_cycles() {
    let mut random = Random::new(116);
    let mut seen = Seen::default();
    for k in [1, 1, 1, 2, 2, 3, 5, 16, 64, 512] {
        let sizes = sizes(&mut random, k);
        let steps = longest(k, &sizes);
        let answer_words = steps.len() / 4;
        let (cycles, _) = run(&List { image: fresh_image(k), batches: vec![(steps, answer_words)] }, &mut seen);
        let [work] = cycles.works().collect::<Vec<_>>()[..] else { panic!("one cycle") };
        assert_eq!(work.accepted(), 8 * (64 * k - 1) - sizes.len() + 2 * k, "{k} cards");
    }
}

#[test]
fn lists_that_drag_on() {
    let (mut seen, mut shown, mut most) = (Seen::default(), Shown::default(), Most::default());
    for list in lists() {
        most.add(run(&list, &mut seen).1);
        shown.count(&list);
    }
    println!("{seen:?}\n{shown:?}\n{most:?}");
    assert!(shown.is_worth_running() && most.percent >= 99, "{shown:?}, {most:?}");
    assert!(seen.every_kind() && seen.every_refusal() && seen.unknown_kinds > 20 && seen.refused > 1_000, "{seen:?}");
}

/// Random steps, mostly of the tracers, on drawn images.
#[test]
fn random_lists_that_drag_on() {
    let mut random = Random::new(117);
    let (mut seen, mut most) = (Seen::default(), Most::default());
    for round in 0..300 {
        let k = 1 + round % 12;
        let image = [running, bare, idle, far, evolved][round % 5](&mut random, k);
        let pace = Pace { finish: 1, ..Pace::draw(&mut random) };
        let steps = list_that_drags(&mut random, &mut image.clone(), 1_000, pace);
        let batches = batches(&mut random, &steps);
        most.add(run(&List { image, batches }, &mut seen).1);
    }
    println!("{seen:?}\n{most:?}");
    assert!(seen.every_kind() && seen.every_refusal() && seen.refused > 1_000, "{seen:?}");
    assert!(most.accepted > 300 && most.percent >= 10, "{most:?}");
}

/// The whole-list check, which counts too, on the library's own answers.
#[test]
fn whole_lists_that_drag_on() {
    let mut counts = Counts::default();
    for list in some_lists() {
        counts.add(&whole_list(&list.image, &list.batches, library::batch).unwrap());
    }
    println!("{counts:?}");
    assert!(counts.work.accepted > 2_500 && counts.work.percent >= 97, "{:?}", counts.work);
    assert!(counts.without_packet > 20 && counts.wiped.dirty > 10 && counts.wiped.dirty_and_taken > 500, "{counts:?}");
}
