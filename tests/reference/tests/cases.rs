//! The documents' cases, and some that their rules decide.

use crate::common::*;
use reference::image::Image;
use reference::made::fresh_image;
use reference::{batch, cards_of_length, fresh, judge, length};

#[test]
fn new_on_one_card() {
    assert_eq!(last(&[new(0, 0, 63, 250)]), (0, 1));
    assert_eq!(last(&[new(0, 0, 63, 251)]), (8, 0));
    assert_eq!(last(&[new(0, 0, 64, 0)]), (9, 0));
    assert_eq!(last(&[new(0, 0, 1024, 0)]), (9, 0));
    assert_eq!(last(&[new(0, 0, 1025, 0)]), (8, 0));
    assert_eq!(last(&[new(0, 0, 0, 0)]), (8, 0));
}

#[test]
fn lengths() {
    for (words, result) in [(1648, 1), (1649, 1), (1650, 0), (1651, 1)] {
        let mut image = vec![7u16; words];
        assert_eq!(fresh(&mut image), result);
        assert_eq!(judge(&image), result);
        assert_eq!(batch(&mut image, &[], &mut []), result);
        assert_eq!(image.iter().all(|&w| w == 7), result == 1);
    }
}

#[test]
fn dropped_before_the_cycle() {
    let list = [new(0, 0, 1, 0), drop(0, 0), begin(), finish(), new(0, 0, 1, 0)];
    assert_eq!(on_one_card(&list), [(0, 1), (0, 0), (0, 0), (0, 1), (0, 1)]);
}

#[test]
fn dropped_after_its_scan() {
    let list = [new(0, 0, 1, 0), begin(), scan(0, 0), drop(0, 0), finish(), begin(), finish()];
    let answers = on_one_card(&list);
    assert_eq!(answers[4], (0, 0));
    assert_eq!(answers[6], (0, 1));
}

#[test]
fn new_in_a_cycle_is_not_marked() {
    assert_eq!(last(&[begin(), new(0, 0, 1, 0), drop(0, 0), finish()]), (0, 1));
}

/// M = 1 in r0 links to A = 3, O = 2 in r1, A in no register; scanned, O done, M waits.
fn moved_while_tracing() -> Vec<Record> {
    vec![
        new(0, 0, 1, 1),
        new(0, 1, 1, 1),
        new(0, 2, 1, 1),
        store(0, 0, 0, 2),
        barrier(0),
        drop(0, 2),
        begin(),
        scan(0, 0),
        trace(0),
        trace(0),
        trace(0),
    ]
}

#[test]
fn tracing_has_done_o_and_m_waits() {
    let mut image = fresh_image(1);
    let answers = run(&mut image, &moved_while_tracing());
    assert_eq!(answers[..3], [(0, 1), (0, 2), (0, 3)]);
    assert!(answers.iter().all(|(number, _)| *number == 0));
    let image = Image::of(&image).unwrap();
    assert_eq!(image.entered().collect::<Vec<_>>(), [1]);
    assert!(image.tracers().all(|t| t.hand.is_none()));
    assert_eq!([1, 2, 3].map(|g| image.is_marked(g)), [true, true, false]);
}

#[test]
fn moved_behind_the_tracer() {
    let mut list = moved_while_tracing();
    list.extend([load(0, 2, 0, 0), store(0, 1, 0, 2), barrier(0)]);
    list.extend([store(0, 0, 0, 5), barrier(0), drop(0, 2), finish()]);
    assert_eq!(last(&list), (0, 0));
}

#[test]
fn moved_with_the_barrier_unpaid() {
    let mut list = moved_while_tracing();
    list.extend([load(0, 2, 0, 0), store(0, 1, 0, 2), finish()]);
    assert_eq!(last(&list), (0, 0));
}

#[test]
fn handing_to_an_owing_player() {
    let list = [new(0, 0, 1, 1), store(0, 0, 0, 0), new(1, 0, 1, 0), hand(1, 0, 0, 2)];
    assert_eq!(last(&list), (5, 0));
    let own = [new(0, 0, 1, 1), store(0, 0, 0, 0), hand(0, 0, 1, 2)];
    assert_eq!(last(&own), (5, 0));
}

#[test]
fn the_lowest_number_is_given() {
    let owing = [new(0, 0, 1, 1), store(0, 0, 0, 0)];
    let after = |record: Record| last(&[&owing[..], &[record]].concat());
    assert_eq!(after(step(BARRIER, 0, 1, 0, 0)), (3, 0));
    assert_eq!(after(step(BARRIER, 0, 0, 0, 1)), (3, 0));
    assert_eq!(after(drop(0, 16)), (4, 0));
    assert_eq!(after(drop(0, 0)), (5, 0));
    assert_eq!(after(new(0, 0, 0, 0)), (5, 0));
    assert_eq!(after(step(BARRIER, 16, 0, 0, 0)), (4, 0));
    assert_eq!(last(&[barrier(0)]), (11, 0));
}

#[test]
fn empty_batch_judges_the_image() {
    let mut image: Vec<u16> = fresh_image(1);
    assert_eq!(batch(&mut image, &[], &mut []), 0);
    image[0] = 1;
    assert_eq!(batch(&mut image, &[], &mut []), 2);
    image.pop();
    assert_eq!(batch(&mut image, &[], &mut []), 1);
}

#[test]
fn misfit_before_damage() {
    let mut image: Vec<u16> = fresh_image(1);
    image[0] = 1;
    assert_eq!(batch(&mut image, &[9], &mut []), 1);
    assert_eq!(batch(&mut image, &[], &mut [5, 5]), 1);
    assert_eq!(batch(&mut image, &[9, 0, 0, 0, 0, 0, 0, 0], &mut [5, 5]), 2);
}

/// Each field alone set to 1: the number is 3 in the kinds that do not name it, and in no other.
#[test]
fn unnamed_fields() {
    let fields = |kind, n| {
        let mut f = [0u16; 4];
        f[n] = 1;
        step(kind, f[0] as u8, f[1], f[2], f[3])
    };
    let unnamed: [(u8, &[usize]); 15] = [
        (NEW, &[]),
        (LOAD, &[]),
        (STORE, &[]),
        (BARRIER, &[1, 2, 3]),
        (HAND, &[]),
        (DROP, &[2, 3]),
        (READ, &[3]),
        (WRITE, &[]),
        (BEGIN, &[0, 1, 2, 3]),
        (SCAN, &[2, 3]),
        (TRACE, &[1, 2, 3]),
        (CLEAN, &[1, 2, 3]),
        (FINISH, &[0, 1, 2, 3]),
        (DUE, &[0, 2, 3]),
        (UNDIRTY, &[0, 2, 3]),
    ];
    for (kind, places) in unnamed {
        for n in 0..4 {
            let (number, _) = last(&[fields(kind, n)]);
            assert_eq!(number == 3, places.contains(&n), "kind {kind}, field {n}");
        }
    }
    for kind in (16..=255).chain([0]) {
        assert_eq!(last(&[step(kind, 0, 0, 0, 0)]), (3, 0));
    }
}

#[test]
fn players_registers_tracers_and_cards_off_the_desk() {
    let off = [
        new(16, 0, 1, 0),
        new(0, 16, 1, 0),
        load(0, 16, 0, 0),
        load(0, 0, 16, 0),
        store(0, 16, 0, 0),
        store(0, 0, 0, 16),
        hand(0, 16, 0, 0),
        hand(0, 0, 16, 0),
        hand(0, 0, 0, 16),
        drop(255, 0),
        step(READ, 0, 16, 0, 0),
        step(WRITE, 0, 16, 0, 0),
        scan(8, 0),
        scan(0, 16),
        trace(8),
        clean(255),
        undirty(1),
        undirty(65535),
    ];
    for record in off {
        assert_eq!(last(&[record]), (4, 0), "{record:?}");
    }
    assert_eq!(last(&[load(0, 0, 0, 16)]), (6, 0));
    assert_eq!(last(&[step(READ, 0, 0, 16, 0)]), (6, 0));
    assert_eq!(last(&[trace(7)]), (10, 0));
    assert_eq!(last(&[step(DUE, 0, 63, 0, 0)]), (0, 0));
    assert_eq!(last(&[step(DUE, 0, 64, 0, 0)]), (0, 1));
}

#[test]
fn ends_of_links_and_levels() {
    let object = new(0, 0, 2, 2);
    assert_eq!(last(&[object, load(0, 0, 0, 1)]), (0, 0));
    assert_eq!(last(&[object, load(0, 0, 0, 2)]), (7, 0));
    assert_eq!(last(&[object, store(0, 0, 2, 0)]), (7, 0));
    assert_eq!(last(&[object, step(WRITE, 0, 0, 3, 9), step(READ, 0, 0, 3, 0)]), (0, 9));
    assert_eq!(last(&[object, step(READ, 0, 0, 4, 0)]), (7, 0));
    assert_eq!(last(&[object, step(WRITE, 0, 0, 4, 9)]), (7, 0));
}

#[test]
fn phases_and_nothing_to_do() {
    assert_eq!(last(&[begin(), begin()]), (10, 0));
    for record in [scan(0, 0), trace(0), clean(0), finish(), undirty(0)] {
        assert_eq!(last(&[record]), (10, 0));
    }
    assert_eq!(last(&[begin(), scan(0, 0), scan(1, 0)]), (11, 0));
    assert_eq!(last(&[begin(), trace(0)]), (11, 0));
    assert_eq!(last(&[begin(), clean(0)]), (11, 0));
    assert_eq!(last(&[begin(), undirty(0)]), (11, 0));
}

/// What steprun prints for its example, on a store of 16 cards.
#[test]
fn the_programs_example() {
    assert_eq!((length(16), cards_of_length(5640)), (5640, Some(16)));
    let answers = run(&mut fresh_image(16), &[new(0, 0, 1, 1), begin(), finish()]);
    assert_eq!(answers, [(0, 1), (0, 0), (0, 0)]);
}

/// A card dirtied while it is cleaned is not cleaned again; the finish sees to it.
#[test]
fn cleaning_a_card() {
    let mut image = fresh_image(1);
    let list = [new(0, 0, 1, 1), new(0, 1, 1, 0), begin(), scan(0, 0), store(0, 0, 0, 1), barrier(0)];
    run(&mut image, &list);
    assert_eq!(run(&mut image, &[clean(0)]), [(0, 0)]);
    let at = |image: &[u16]| Image::of(image).map(|i| (i.card(0), i.tracer(0).card, i.tracer(0).hand)).unwrap();
    assert_eq!(at(&image), (2, Some((0, 0)), None));
    run(&mut image, &[clean(0)]);
    assert_eq!(at(&image), (2, Some((0, 2)), Some((1, 0))));
    run(&mut image, &[store(0, 0, 0, 1), barrier(0), clean(0)]);
    assert_eq!(at(&image), (3, Some((0, 2)), None));
    run(&mut image, &[clean(0)]);
    assert_eq!(at(&image), (3, Some((0, 3)), None));
    run(&mut image, &[clean(0)]);
    assert_eq!(at(&image), (3, None, None));
    assert_eq!(run(&mut image, &[clean(0)]), [(11, 0)]);
}
