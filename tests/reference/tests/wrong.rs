//! Wrong implementations of `batch`: the whole-list check must say what is wrong with each.

use crate::common::altered::*;
use crate::common::*;
use reference::generate::{batches, list, Pace};
use reference::image::Image;
use reference::layout::Places;
use reference::made::{bare, fresh_image, idle, running};
use reference::random::Random;
use reference::steps::step_by;
use reference::{batch, players_and_sweeps, whole_list, Placing};

/// Some of the random lists must be found wrong, all for one of the reasons.
fn assert_caught(reasons: &[&str], alter: impl Fn(&mut Done)) {
    assert_any_caught(reasons, &alter);
}

/// The same, compiled once for all of them.
fn assert_any_caught(reasons: &[&str], alter: &dyn Fn(&mut Done)) {
    let mut caught = 0;
    for seed in 0..40 {
        let mut random = Random::new(seed);
        let k = random.from_to(1, 3);
        let make = random.weighted(&[
            (1, running as fn(&mut Random, usize) -> Vec<u16>),
            (1, bare),
            (1, idle),
            (1, |_, k| fresh_image(k)),
        ]);
        let image = make(&mut random, k);
        let pace = Pace { wild: 10, finish: 6, tracers: 60, undirty: 20 };
        let steps = list(&mut random, &mut image.clone(), 300, pace);
        let batches = batches(&mut random, &steps);
        let wrong = |image: &mut [u16], steps: &[u8], answers: &mut [u16]| altered_batch(image, steps, answers, alter);
        if let Err(error) = whole_list(&image, &batches, wrong) {
            assert!(reasons.iter().any(|reason| error.contains(reason)), "{error}");
            caught += 1;
        }
    }
    assert!(caught >= 3, "caught in {caught} lists of 40");
}

const KEPT: &str = "other objects are kept";
const PLAIN: &str = "on the plain store";
const RESULT: &str = "the result is";

#[test]
fn the_right_batch_passes() {
    for seed in 0..40 {
        let mut random = Random::new(seed);
        let image = running(&mut random, 2);
        let pace = Pace::draw(&mut random);
        let steps = list(&mut random, &mut image.clone(), 200, pace);
        let batches = batches(&mut random, &steps);
        let right =
            |image: &mut [u16], steps: &[u8], answers: &mut [u16]| altered_batch(image, steps, answers, &|_| ());
        whole_list(&image, &batches, right).unwrap();
    }
}

/// Ends the cycle as a finish does, but frees nothing.
fn end_cycle(done: &mut Done) {
    done.image.copy_from_slice(done.got);
    let mut store = done.store();
    let layout = store.layout;
    store.zero(layout.mark_bits(), layout.register(0, 0));
    store.zero(layout.packet(0), layout.player(0));
    (0..16).for_each(|p| store.set_scanned(p, false));
    store.set_running(false);
}

#[test]
fn a_finish_that_keeps_everything() {
    assert_caught(&[KEPT], |done| {
        if done.is_accepted(FINISH) {
            end_cycle(done);
            done.answer[1] = 0;
        }
    });
}

#[test]
fn a_finish_that_keeps_everything_but_says_the_number() {
    assert_caught(&[KEPT], |done| {
        if done.is_accepted(FINISH) {
            end_cycle(done);
        }
    });
}

#[test]
fn a_finish_that_says_another_number() {
    assert_caught(&["value"], |done| {
        if done.is_accepted(FINISH) {
            done.answer[1] += 1;
        }
    });
}

#[test]
fn a_finish_that_says_nothing_was_freed() {
    assert_caught(&["value"], |done| {
        if done.is_accepted(FINISH) {
            done.answer[1] = 0;
        }
    });
}

/// All that led to the first object held by a register becomes nil, so that the image stays undamaged.
#[test]
fn a_finish_that_frees_a_reachable_object() {
    assert_caught(&[KEPT], |done| {
        let Some(victim) = done.got().registers().find(|&g| g != 0) else { return };
        if !done.is_accepted(FINISH) {
            return;
        }
        let registers = done.store().layout.register(0, 0)..done.store().layout.packet(0);
        done.image[registers].iter_mut().filter(|g| usize::from(**g) == victim).for_each(|g| *g = 0);
        let links: Vec<(usize, usize)> = Image::of(done.image)
            .unwrap()
            .objects()
            .flat_map(|o| o.links.iter().enumerate().map(move |(i, &g)| (o.start, i, g)))
            .filter(|&(_, _, g)| usize::from(g) == victim)
            .map(|(start, i, _)| (start, i))
            .collect();
        links.iter().for_each(|&(g, i)| done.store().set_link(g, i, 0));
        let answers = run(done.image, &[begin(), finish()]);
        done.answer[1] += answers[1].1;
    });
}

#[test]
fn a_finish_that_leaves_levels_in_freed_granules() {
    assert_caught(&["damaged: Some(Filling)", RESULT], |done| {
        if done.is_accepted(FINISH) {
            let run = Image::of(done.image).unwrap().first_run();
            let at = done.store().layout.granule(run) + 2;
            done.image[at] = done.got[at];
        }
    });
}

fn mark_everything(done: &mut Done) {
    let mut store = done.store();
    let unmarked: Vec<usize> = store.image().starts().filter(|&g| !store.image().is_marked(g)).collect();
    unmarked.iter().for_each(|&g| store.mark(g));
}

/// What is marked is kept by the rule; only what the begin left unreached shows the slip.
#[test]
fn a_begin_that_marks_everything() {
    assert_caught(&["reached by no chain at the begin, is not freed"], |done| {
        if done.is_accepted(BEGIN) {
            mark_everything(done);
        }
    });
}

#[test]
fn a_trace_that_marks_everything() {
    assert_caught(&["reached by no chain at the begin, is not freed"], |done| {
        if done.is_accepted(TRACE) {
            mark_everything(done);
        }
    });
}

#[test]
fn a_trace_that_marks_and_does_not_enter() {
    assert_caught(&["damaged: Some(Cover)", RESULT], |done| {
        let tracer = usize::from(done.record.who);
        if done.is_accepted(TRACE) && done.got().tracer(tracer).hand.is_some() {
            let output = Image::of(done.image).unwrap().tracer(tracer).output;
            let count = |image: Image| image.entered().count();
            if count(Image::of(done.image).unwrap()) > count(done.got()) {
                done.store().pop(output.unwrap());
            }
        }
    });
}

#[test]
fn a_barrier_that_leaves_the_card_clean() {
    assert_caught(&["damaged: Some(Cover)", RESULT], |done| {
        if done.is_accepted(BARRIER) && done.got().is_running() {
            let card = done.got().owed_card(done.record.who()).unwrap();
            let state = done.got().card(card);
            done.store().set_card(card, state);
        }
    });
}

#[test]
fn a_clean_that_wipes_the_card_without_taking_it() {
    assert_caught(&["damaged: Some(Cover)", RESULT], |done| {
        let took = |image: Image, t: usize| image.tracer(t).card.is_some();
        let tracer = usize::from(done.record.who);
        if done.is_accepted(CLEAN) && !took(done.got(), tracer) && took(Image::of(done.image).unwrap(), tracer) {
            let held = Image::of(done.image).unwrap().tracer(tracer);
            done.store().set_tracer(tracer, reference::image::Tracer { card: None, ..held });
        }
    });
}

#[test]
fn an_undirty_that_ignores_the_count() {
    assert_caught(&["number 0, not 11", "damaged: Some(Cover)", RESULT], undirty_whatever_the_count);
}

#[test]
fn an_undirty_that_ignores_the_state() {
    assert_caught(&["number 0, not 11"], undirty_whatever_the_state);
}

#[test]
fn an_undirty_that_lets_the_card_go() {
    assert_caught(&["damaged: Some(Hands)", "an undirty leaves another image", RESULT], undirty_that_lets_the_card_go);
}

#[test]
fn a_reach_that_forgets_the_count() {
    assert_caught(&["damaged: Some(Counts)", RESULT], reach_that_forgets_the_count);
}

#[test]
fn a_finish_that_leaves_the_counts() {
    assert_caught(&["damaged: Some(Counts)", RESULT], finish_that_leaves_the_counts);
}

/// In how many lists with many undirty steps an object is lost. Each batch has one record, so that none is run behind such a finish.
fn lost_by(wrong: Alter) -> usize {
    let mut lost = 0;
    for seed in 0..200 {
        let mut random = Random::new(seed);
        let k = random.from_to(1, 3);
        let image = running(&mut random, k);
        let pace = Pace { wild: 0, finish: 15, tracers: 30, undirty: 100 };
        let steps = list(&mut random, &mut image.clone(), 100, pace);
        let batches: Vec<(Vec<u8>, usize)> = steps.chunks(8).map(|bytes| (bytes.to_vec(), 2)).collect();
        let run = |image: &mut [u16], steps: &[u8], answers: &mut [u16]| unjudged_batch(image, steps, answers, wrong);
        if let Err(error) = players_and_sweeps(&image, &batches, run) {
            assert!(error.contains("is reached by a chain and does not stay"), "{error}");
            lost += 1;
        }
    }
    lost
}

/// "what players and sweeps may rely on holds with them included", and with one that ignores the count it does not: a finish frees
/// an object that a chain reaches.
#[test]
fn a_live_object_is_lost_by_an_undirty_that_ignores_the_count() {
    assert_eq!(lost_by(|_| ()), 0);
    let lost = lost_by(undirty_whatever_the_count);
    assert!(lost >= 3, "an object was lost in {lost} lists of 200");
}

#[test]
fn a_begin_or_finish_in_the_wrong_phase() {
    assert_caught(&["number 10, not 0"], |done| {
        if done.is_accepted(BEGIN) {
            done.refuse(10);
        }
    });
    assert_caught(&["number 0, not 10"], |done| {
        if done.record.kind == FINISH && done.answer[0] == 10 {
            done.answer[0] = 0;
        }
    });
}

#[test]
fn no_room_said_too_soon() {
    assert_caught(&["with the stretch"], |done| {
        let fills_a_run = |g: usize| done.got().runs().any(|run| run == (g, done.record.b()));
        if done.is_accepted(NEW) && fills_a_run(usize::from(done.answer[1])) {
            done.refuse(9);
        }
    });
    assert_caught(&["no room before an earlier refusal"], |done| {
        if done.record.kind == NEW && done.answer[0] == 8 {
            done.answer[0] = 9;
        }
    });
}

/// The rule of before document 02, (v).
#[test]
fn a_new_in_the_lowest_run() {
    assert_caught(&["with the stretch"], |done| {
        if done.is_accepted(NEW) {
            let record = done.record;
            done.image.copy_from_slice(done.got);
            done.answer[1] = step_by(Placing::Lowest, &mut done.store(), record).1;
        }
    });
}

#[test]
fn a_new_that_says_another_granule() {
    assert_caught(&["with the stretch"], |done| {
        if done.is_accepted(NEW) {
            done.answer[1] += 1;
        }
    });
}

#[test]
fn steps_that_leave_the_store_still() {
    for kind in [STORE, HAND, DROP, WRITE, LOAD, BARRIER] {
        // A new that is refused for what its player still owes is seen by its room first.
        assert_caught(&[PLAIN, "with the stretch"], |done| {
            if done.is_accepted(kind) {
                done.image.copy_from_slice(done.got);
            }
        });
    }
}

#[test]
fn one_value_for_all() {
    for kind in [LOAD, READ] {
        assert_caught(&[PLAIN, "no object was ever"], |done| {
            if done.is_accepted(kind) {
                done.answer[1] = 1;
            }
        });
    }
}

#[test]
fn a_step_allowed_to_an_owing_player() {
    assert_caught(&[PLAIN], |done| {
        if done.record.kind == DROP && done.answer[0] == 5 {
            done.answer[0] = 0;
        }
    });
}

/// A step that a number should refuse is answered 0 and leaves the store still.
#[test]
fn a_refusal_left_out() {
    for number in [3, 4, 6, 7, 8, 11] {
        assert_caught(&[PLAIN, "number 0, not 3", "with the stretch"], |done| {
            if done.answer[0] == number && (1..=8).contains(&done.record.kind) {
                done.answer[0] = 0;
            }
        });
    }
}

/// A step that should be accepted is refused.
#[test]
fn a_refusal_too_many() {
    for (kind, number) in [(LOAD, 3), (STORE, 4), (BARRIER, 11), (HAND, 5), (DROP, 5), (READ, 6), (WRITE, 7)] {
        assert_caught(&[PLAIN, "with the stretch"], |done| {
            if done.is_accepted(kind) {
                done.refuse(number);
            }
        });
    }
}

#[test]
fn a_refused_step_with_a_value() {
    assert_caught(&["a refused step has a value"], |done| {
        if done.answer[0] != 0 {
            done.answer[1] = 1;
        }
    });
}

#[test]
fn results() {
    let image = fresh_image(1);
    let batches = [(bytes(&[begin()]), 2), (vec![0], 0)];
    let run = |wrong: fn(&mut [u16], &[u8], &mut [u16]) -> u16| whole_list(&image, &batches, wrong);
    assert!(run(batch).is_ok());
    assert!(run(|_, _, _| 2).unwrap_err().contains("the result is 2"));
    assert!(run(|_, _, _| 0).is_err());
    let writes_when_refused = |image: &mut [u16], steps: &[u8], answers: &mut [u16]| {
        let result = batch(image, steps, answers);
        if result != 0 {
            image[10] = 1;
        }
        result
    };
    assert!(run(writes_when_refused).unwrap_err().contains("a refused batch wrote"));
    let forgets_all_but_the_first = |image: &mut [u16], steps: &[u8], answers: &mut [u16]| {
        if steps.len() <= 8 || !steps.len().is_multiple_of(8) {
            return batch(image, steps, answers);
        }
        batch(image, &steps[..8], &mut answers[..2])
    };
    let two = [(bytes(&[begin(), finish()]), 4)];
    assert!(whole_list(&image, &two, forgets_all_but_the_first).unwrap_err().contains("one step at a time"));
    let mut damaged = image.clone();
    damaged[0] = 1;
    assert!(whole_list(&damaged, &batches, batch).is_err());
}
