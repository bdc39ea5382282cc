//! Wrong stores that the count of document 02, (vii), must tell: lists that make a cycle drag on are run by each, and what comes of them, with the count,
//! is all that is looked at. They judge nothing and go on with damaged images.

use crate::common::altered::*;
use crate::common::*;
use reference::dragging::some_lists;
use reference::events::{events, List};
use reference::image::{Image, Store, Tracer};
use reference::layout::Places;
use reference::steps::step as run_step;
use reference::work::check_work;
use reference::{players_and_sweeps, whole_list};

// Slips that the count cannot tell, since no more is accepted with them than by the rules can be:
// - an input that goes back to the pool after every entry: each packet that is taken still gives up an entry, and an object is entered once;
// - a trace that takes an object in hand although its card is dirty: it is still traced once and cleaned once;
// - a begin that leaves the cards as they are, and an undirty that looks at no count or no state: a card is still taken once;
// - a trace that is accepted outside a cycle, which is in no stretch that is counted.

const SHARPER: &str = "trace and clean steps, over 8 × G + 2 × k = ";
const FIGURE: &str = "trace and clean steps, over 12 × G = ";

/// What is told of the lists, all of it by the count.
fn told(wrong: Alter) -> Vec<String> {
    let run = |image: &mut [u16], steps: &[u8], answers: &mut [u16]| unjudged_batch(image, steps, answers, wrong);
    let told: Vec<String> =
        some_lists().filter_map(|list| players_and_sweeps(&list.image, &list.batches, run).err()).collect();
    assert!(told.iter().all(|error| error.contains(SHARPER) || error.contains(FIGURE)), "{told:?}");
    told
}

/// There is no end to what is accepted: some list goes over 12 × G.
fn assert_told(wrong: Alter) {
    let told = told(wrong);
    assert!(told.len() >= 2 && told.iter().any(|error| error.contains(FIGURE)), "{told:?}");
}

#[test]
fn the_right_store_passes() {
    assert_eq!(told(|_| ()), Vec::<String>::new());
}

/// The step again, on what it got and with something altered there before.
fn redo(done: &mut Done, prepare: impl FnOnce(&mut Store)) {
    done.image.copy_from_slice(done.got);
    let record = done.record;
    let mut store = done.store();
    prepare(&mut store);
    let (number, value) = run_step(&mut store, record);
    done.answer.copy_from_slice(&[number, value]);
}

/// The tracer of an accepted step of that kind, before it and after it.
fn tracers(done: &Done, kind: u8) -> Option<(Tracer, Tracer)> {
    let tracer = |image: Image| image.tracer(done.record.who());
    done.is_accepted(kind).then(|| (tracer(done.got()), tracer(Image::of(done.image).unwrap())))
}

fn set_tracer(done: &mut Done, tracer: Tracer) {
    let t = done.record.who();
    done.store().set_tracer(t, tracer);
}

/// A trace that takes an entry off its input: the packet and the entry.
fn popped(done: &Done) -> Option<(usize, usize)> {
    let (Tracer { hand: None, input: Some(n), .. }, _) = tracers(done, TRACE)? else { return None };
    done.got().entries(n).last().map(|&entry| (n, usize::from(entry)))
}

/// A trace or clean that reaches a link: what was in hand, and the tracer after it.
fn reached(done: &Done) -> Option<((usize, usize), Tracer)> {
    let (before, after) = tracers(done, TRACE).or(tracers(done, CLEAN))?;
    before.hand.map(|hand| (hand, after))
}

/// A clean that looks for an object on its card: where it was, and the tracer after it.
fn cleaned(done: &Done) -> Option<((usize, usize), Tracer)> {
    match tracers(done, CLEAN)? {
        (Tracer { hand: None, card: Some(card), .. }, after) => Some((card, after)),
        _ => None,
    }
}

fn unmark(store: &mut Store, g: usize) {
    store.set_mark(g, false);
    store.count_marks();
}

/// Answers 0 instead of that number to steps of that kind.
fn accept(done: &mut Done, kind: u8, number: u16) {
    if (done.record.kind, done.answer[0]) == (kind, number) {
        done.answer[0] = 0;
    }
}

#[test]
fn a_clean_that_takes_a_card_again() {
    assert_told(|done| {
        let taken = (0..done.got().cards()).find(|&c| done.got().card(c) == 3);
        if let (CLEAN, 11, Some(c)) = (done.record.kind, done.answer[0], taken) {
            redo(done, |store| store.set_card(c, 1));
        }
    });
}

#[test]
fn a_clean_that_does_not_say_what_it_has_taken() {
    assert_told(|done| {
        if let Some((Tracer { card: None, .. }, Tracer { card: Some((c, _)), .. })) = tracers(done, CLEAN) {
            done.store().set_card(c, 0);
        }
    });
}

#[test]
fn an_undirty_that_lets_the_card_go() {
    assert_told(undirty_that_lets_the_card_go);
}

#[test]
fn an_undirty_that_turns_3_to_1() {
    assert_told(|done| {
        let card = done.record.a();
        if done.is_accepted(UNDIRTY) && done.got().card(card) == 3 {
            done.store().set_card(card, 1);
        }
    });
}

#[test]
fn a_barrier_that_turns_every_card_to_1() {
    assert_told(|done| {
        if done.is_accepted(BARRIER) {
            let card = done.got().owed_card(done.record.who()).unwrap();
            done.store().set_card(card, 1);
        }
    });
}

#[test]
fn a_trace_that_does_not_pop() {
    assert_told(|done| {
        if let Some((n, object)) = popped(done) {
            done.store().append(n, object);
        }
    });
}

/// The fullest packet becomes input then, which may be the same.
#[test]
fn an_input_that_goes_back_before_it_is_empty() {
    assert_told(|done| {
        if popped(done).is_some() {
            let t = done.record.who();
            redo(done, |store| store.set_tracer(t, Tracer { input: None, ..store.image().tracer(t) }));
        }
    });
}

#[test]
fn a_reach_that_enters_a_marked_object() {
    assert_told(|done| {
        let Some(((object, link), _)) = reached(done) else { return };
        let target = usize::from(done.got().object(object).links[link]);
        if target != 0 && done.got().is_marked(target) {
            redo(done, |store| unmark(store, target));
        }
    });
}

#[test]
fn a_reach_that_does_not_mark() {
    assert_told(|done| {
        if matches!(done.record.kind, SCAN..=CLEAN) {
            let (got, left) = (done.got(), Image::of(done.image).unwrap());
            let marked: Vec<usize> = left.starts().filter(|&g| left.is_marked(g) && !got.is_marked(g)).collect();
            marked.iter().for_each(|&g| unmark(&mut done.store(), g));
        }
    });
}

#[test]
fn a_hand_that_stays_at_its_link() {
    assert_told(|done| {
        if let Some((hand, after)) = reached(done) {
            set_tracer(done, Tracer { hand: Some(hand), ..after });
        }
    });
}

#[test]
fn a_hand_that_starts_over() {
    assert_told(|done| {
        if let Some(((object, _), after @ Tracer { hand: None, .. })) = reached(done) {
            set_tracer(done, Tracer { hand: Some((object, 0)), ..after });
        }
    });
}

#[test]
fn a_clean_that_does_not_move_on() {
    assert_told(|done| {
        if let Some((card, after @ Tracer { card: Some(_), .. })) = cleaned(done) {
            set_tracer(done, Tracer { card: Some(card), ..after });
        }
    });
}

#[test]
fn a_clean_that_lets_no_card_go() {
    assert_told(|done| {
        if let Some((card, after @ Tracer { card: None, .. })) = cleaned(done) {
            set_tracer(done, Tracer { card: Some(card), ..after });
        }
    });
}

#[test]
fn a_trace_or_clean_accepted_with_nothing_to_do() {
    assert_told(|done| accept(done, TRACE, 11));
    assert_told(|done| accept(done, CLEAN, 11));
}

/// These leave every image as it was: to the check of each step all is well, and the count tells it there too.
#[test]
fn the_whole_list_check_has_the_count() {
    let list = some_lists().next().unwrap();
    let check = |alter: Alter| {
        whole_list(&list.image, &list.batches, |image, steps, answers| altered_batch(image, steps, answers, &alter))
    };
    assert!(check(|_| ()).is_ok());
    assert!(check(|done| accept(done, TRACE, 11)).unwrap_err().contains(FIGURE));
    assert!(check(|done| accept(done, CLEAN, 11)).unwrap_err().contains(FIGURE));
}

/// The cards become 0 in the middle of a cycle and are taken again. The phase of the begin is told first where it is looked at; the count tells it
/// alone.
#[test]
fn a_begin_accepted_in_a_cycle() {
    let wrong: Alter = |done| {
        if (done.record.kind, done.answer[0]) == (BEGIN, 10) {
            redo(done, |store| store.set_running(false));
        }
    };
    let run = |image: &mut [u16], steps: &[u8], answers: &mut [u16]| unjudged_batch(image, steps, answers, wrong);
    let of_list = |list: List| check_work(&list.image, &events(&list.image, &list.batches, run)).err();
    let told: Vec<String> = some_lists().filter_map(of_list).collect();
    assert!(told.len() >= 2 && told.iter().any(|error| error.contains(FIGURE)), "{told:?}");
}

/// What was entered in one cycle is entered again in the next and traced twice. With one such cycle before, that is more than the sharper figure
/// and less than 12 × G.
#[test]
fn a_finish_that_leaves_the_packets() {
    let told = told(|done| {
        if done.is_accepted(FINISH) {
            let layout = done.got().layout;
            let packets = layout.packet(0)..layout.tracer(0);
            done.image[packets.clone()].copy_from_slice(&done.got[packets]);
        }
    });
    assert!(told.iter().any(|error| error.contains(SHARPER)), "{told:?}");
}
