//! Dues in long batches, by document 02, (iv): behind every step two dues leave the count that they answer from no choice.

use library::compared::{same, Seen};
use reference::generate::batches;
use reference::pinned::{lists, List, Shown};
use reference::random::Random;
use reference::record::RECORD_BYTES;

fn in_one_batch(image: &mut [u16], list: &List, seen: &mut Seen) -> Vec<u16> {
    same(image, &list.steps, list.steps.len() / RECORD_BYTES * 2, seen)
}

#[test]
fn in_one_batch_each() {
    let (mut seen, mut shown) = (Seen::default(), Shown::default());
    let mut shortest = usize::MAX;
    for list in lists() {
        in_one_batch(&mut list.image.clone(), &list, &mut seen);
        shown.count(&list);
        shortest = shortest.min(list.steps.len() / RECORD_BYTES);
    }
    println!("{seen:?}\n{shown:?}");
    assert!(shown.is_worth_running(), "{shown:?}");
    assert!(seen.every_kind() && seen.every_refusal() && seen.unknown_kinds > 1_000, "{seen:?}");
    // One due of each pair says 0, the other 1.
    assert!(seen.due >= shown.pinned && seen.accepted[14] - seen.due >= shown.pinned, "{seen:?}");
    assert!(shortest >= 750 && shown.pinned >= 100_000, "{shortest} records in the shortest batch");
}

/// A batch that begins anywhere counts as the one long batch does, and so does an empty one or a misfit between.
#[test]
fn cut_into_batches() {
    let mut random = Random::new(113);
    let (mut whole, mut cut) = (Seen::default(), Seen::default());
    for list in lists().step_by(2) {
        let (mut image, mut left) = (list.image.clone(), list.image.clone());
        let answers = in_one_batch(&mut left, &list, &mut whole);
        let parts = batches(&mut random, &list.steps);
        let in_parts = parts.iter().flat_map(|(steps, answer_words)| same(&mut image, steps, *answer_words, &mut cut));
        assert!(in_parts.collect::<Vec<u16>>() == answers && image == left, "batches of {} parts", parts.len());
    }
    println!("{cut:?}");
    assert!(cut.steps == whole.steps && cut.refused > 1_000 && whole.refused == 0, "{cut:?}");
}
