//! Stores on which a bounded stack overflows: what they show, and the wrong searches that they tell from the right one.

use std::collections::BTreeMap;

use reference::bounded::{Search, Work, RIGHT, STACK, WRONG};
use reference::image::Image;
use reference::overflow::{lists, overflowing};
use reference::report::*;
use reference::{cards_of_length, judge};

fn image(words: &[u16]) -> Image<'_> {
    Image::of(words).unwrap()
}

/// The stores are undamaged and have objects held and lost; the right search sees all that is within reach.
fn searched(name: &str, words: &[u16]) -> Work {
    assert_eq!(judge(words), 0, "{name}");
    let reached = within_reach(image(words));
    let [held, lost] = [true, false].map(|held| image(words).starts().filter(|&g| reached[g] == held).count());
    let work = RIGHT.run(image(words));
    println!("{name}: {held} held, {lost} lost, {} spilled, {} refills", work.spilled, work.refills);
    assert!(work.seen == reached, "{name}");
    assert!(held >= 1_500 && lost >= 100, "{name}: {held} held, {lost} lost");
    work
}

/// And not too often: what makes a refill necessary is a full stack, all of which is followed first.
#[test]
fn a_stack_overflows_again_and_again() {
    let stores = overflowing();
    assert_eq!(stores.len(), 20);
    for (name, words) in stores {
        let work = searched(&name, &words);
        assert!(work.spilled >= 1_000 && work.refills >= 2, "{name}");
        let seen = work.seen.iter().filter(|&&is_seen| is_seen).count();
        assert!(STACK * work.refills <= seen, "{name}: {} refills for {seen} objects", work.refills);
    }
}

/// Nothing goes wrong with any of the searches where the stack does not overflow.
#[test]
fn lists_need_no_stack() {
    let stores = lists();
    assert_eq!(stores.len(), 6);
    for (name, words) in stores {
        let work = searched(&name, &words);
        assert_eq!((work.spilled, work.refills), (0, 0), "{name}");
        assert!(WRONG.iter().all(|(_, search)| search.run(image(&words)).seen == work.seen), "{name}");
    }
}

/// The verdict on a report without a bad stretch, by what a search has seen.
fn verdict(reported: &Reported, search: Search) -> u16 {
    let [first, second] = [reported.first, reported.second].map(|image| search.run(image).seen);
    let covered = covered(reported);
    if reported.second.starts().any(|g| second[g] && covered[g]) {
        13
    } else if reported.first.starts().any(|g| !first[g] && !covered[g]) {
        14
    } else {
        0
    }
}

/// A report of all that is lost: the right search finds it acceptable, and each wrong one misses an object on some of the stores.
#[test]
fn the_stores_tell_wrong_searches() {
    let mut told: BTreeMap<&str, Vec<String>> = BTreeMap::new();
    for (name, words) in overflowing() {
        let image = image(&words);
        let reached = within_reach(image);
        let lost = image.objects().filter(|object| !reached[object.start]);
        let stretches: Vec<Stretch> = lost.map(|object| Stretch::new(object.start, object.size)).collect();
        let mut scratch = vec![1; scratch_words(cards_of_length(words.len()).unwrap())];
        assert_eq!(judge_report(&words, &words, &report_bytes(&stretches), &mut scratch), 0, "{name}");
        let reported = Reported { first: image, second: image, stretches };
        assert_eq!(verdict(&reported, RIGHT), 0, "{name}");
        for (wrong, search) in WRONG {
            if verdict(&reported, search) == 14 {
                told.entry(wrong).or_default().push(name.clone());
            }
        }
    }
    for (wrong, _) in WRONG {
        println!("{wrong}: {:?}", told[wrong]);
    }
    assert!(WRONG.iter().all(|(wrong, _)| told[wrong].len() >= 3));
}
