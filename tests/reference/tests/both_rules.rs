//! Document 02, (v): "for the same list on the same image, kinds 1 to 8 get the same answers under both rules, read as in demand 3, up to
//! the first new refused for room under one rule only." The check over lists that fill the store, and wrong stores that it must tell.

use crate::common::altered::*;
use crate::common::*;
use reference::both_rules::{both_rules, lists, some_lists, Compared, End, Shown};
use reference::events::{events, Events, List};
use reference::image::Image;
use reference::layout::Places;
use reference::made::fresh_image;
use reference::{batch, batch_by, Placing};

fn by_lowest(list: &List) -> Events {
    events(&list.image, &list.batches, |image, steps, answers| batch_by(Placing::Lowest, image, steps, answers))
}

#[test]
fn the_same_answers_under_both_rules() {
    let mut shown = Shown::default();
    for list in lists() {
        let (lowest, tightest) = (by_lowest(&list), events(&list.image, &list.batches, batch));
        let compared = both_rules(&list.image, &lowest, &tightest).unwrap();
        shown.count(&compared, &tightest);
    }
    println!("{shown:?}");
    assert!(shown.is_worth_running(), "{shown:?}");
}

/// Runs of 4 granules and, above, of 2; a new of `first` granules, and one of 4. A first one of 2 takes from the long run if it goes to the
/// lowest, and the second has no room; one of 5 has no room by either rule, and the second has.
fn two_news(first: u16) -> Compared {
    let made = [new(0, 0, 4, 0), new(1, 0, 1, 1), new(0, 1, 2, 0), new(1, 1, 56, 0)];
    let freed = [drop(0, 0), drop(0, 1), begin(), finish()];
    let news = [new(2, 0, first, 0), new(2, 1, 4, 0), store(1, 0, 0, 1), barrier(1), load(1, 2, 0, 0)];
    let steps = bytes(&[&made[..], &freed, &news].concat());
    let answer_words = steps.len() / 4;
    let list = List { image: fresh_image(1), batches: vec![(steps, answer_words)] };
    let tightest = events(&list.image, &list.batches, batch);
    both_rules(&list.image, &by_lowest(&list), &tightest).unwrap()
}

#[test]
fn by_hand() {
    let compared = two_news(2);
    assert_eq!((compared.end, compared.placed_otherwise, compared.records), (End::LowestRefused, 1, 7));
    let compared = two_news(5);
    assert_eq!((compared.end, compared.both_refused, compared.records, compared.loads), (End::OfTheList, 1, 11, 1));
}

/// In how many of the lists a store that is wrong under the tightest rule is told, all for one of the reasons.
fn assert_told(reasons: &[&str], wrong: Alter) {
    let mut told = 0;
    for list in some_lists() {
        let run = |image: &mut [u16], steps: &[u8], answers: &mut [u16]| altered_batch(image, steps, answers, &wrong);
        let tightest = events(&list.image, &list.batches, run);
        if let Err(error) = both_rules(&list.image, &by_lowest(&list), &tightest) {
            assert!(reasons.iter().any(|reason| error.contains(reason)), "{error}");
            told += 1;
        }
    }
    assert!(told >= 5, "told by {told} lists of 120");
}

const ANSWER: &str = "under the lowest";

#[test]
fn the_right_store_is_told_by_no_list() {
    for list in some_lists() {
        let run = |image: &mut [u16], steps: &[u8], answers: &mut [u16]| altered_batch(image, steps, answers, &|_| ());
        both_rules(&list.image, &by_lowest(&list), &events(&list.image, &list.batches, run)).unwrap();
    }
}

/// A finish that empties the first register that holds an object.
#[test]
fn an_object_lost() {
    assert_told(&[ANSWER], |done| {
        let held =
            |image: Image| (0..16).flat_map(|p| (0..16).map(move |r| (p, r))).find(|&(p, r)| image.register(p, r) != 0);
        if let Some((p, r)) = held(done.got()).filter(|_| done.is_accepted(FINISH)) {
            done.store().set_register(p, r, 0);
        }
    });
}

/// A new that gives an object that a register holds already.
#[test]
fn a_held_object_given_again() {
    assert_told(&[ANSWER], |done| {
        let held = done.got().registers().find(|&g| g != 0);
        if let Some(g) = held.filter(|_| done.is_accepted(NEW)) {
            let record = done.record;
            done.store().set_register(record.who(), record.a(), g);
            done.answer[1] = g as u16;
        }
    });
}

#[test]
fn a_load_of_the_next_link() {
    assert_told(&[ANSWER], |done| {
        if done.is_accepted(LOAD) {
            let record = done.record;
            let links = done.got().object(done.got().register(record.who(), record.b())).links;
            let link = links[(record.c() + 1) % links.len()];
            done.store().set_register(record.who(), record.a(), usize::from(link));
            done.answer[1] = link;
        }
    });
}

/// A new that would use a run up is refused, and not for room; one without room is refused for its size.
#[test]
fn a_new_refused_with_another_number() {
    assert_told(&[ANSWER], |done| {
        let uses_up = |g: u16| done.got().runs().any(|run| run == (usize::from(g), done.record.b()));
        if done.is_accepted(NEW) && uses_up(done.answer[1]) {
            done.refuse(8);
        }
    });
    assert_told(&[ANSWER], |done| {
        if done.record.kind == NEW && done.answer[0] == 9 {
            done.answer[0] = 8;
        }
    });
}

/// A refusal for room where an earlier number refuses under both: the list does not end there.
#[test]
fn a_new_refused_for_room_too_soon() {
    assert_told(&[ANSWER], |done| {
        if done.record.kind == NEW && (3..9).contains(&done.answer[0]) {
            done.answer[0] = 9;
        }
    });
}

#[test]
fn a_new_without_room_that_empties_its_register() {
    assert_told(&[ANSWER], |done| {
        if done.record.kind == NEW && done.answer[0] == 9 {
            let record = done.record;
            done.store().set_register(record.who(), record.a(), 0);
        }
    });
}

/// What a new lays down is not zero behind its links.
#[test]
fn a_new_with_a_level_left() {
    assert_told(&[ANSWER], |done| {
        if done.is_accepted(NEW) && done.record.c() < 4 * done.record.b() - 2 {
            let at = done.got().layout.granule(usize::from(done.answer[1])) + 2 + done.record.c();
            done.image[at] = 1;
        }
    });
}

/// A load that names a granule at which no object ever was.
#[test]
fn a_load_of_no_object() {
    assert_told(&["no object was ever at 65535"], |done| {
        if done.is_accepted(LOAD) && done.answer[1] != 0 {
            done.answer[1] = u16::MAX;
        }
    });
}

#[test]
fn another_result() {
    let list = lists().next().unwrap();
    let refused = events(&list.image, &list.batches, |_, _, _| 2);
    assert!(both_rules(&list.image, &by_lowest(&list), &refused).unwrap_err().contains("other results"));
}
