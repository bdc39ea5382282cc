//! Sweep reports, by document 02, (vi) and (viii): stretches by hand, the reports of our own finishes, and wrong implementations that the
//! cases tell from the right one.

use std::collections::{BTreeMap, BTreeSet};
use std::ops::Range;

use crate::common::*;
use reference::demand::reached_by_chains;
use reference::generate::batches;
use reference::image::{Image, Store};
use reference::layout::length;
use reference::random::Random;
use reference::report::*;
use reference::reports::*;
use reference::vectors::{parse_older_reports, parse_reports, ReportCase};
use reference::{batch, judge};

/// An object by its first granule, its size and its links.
type Laid<'a> = (usize, usize, &'a [usize]);

/// A store of one card with these objects and runs between them, and with objects in the registers of player 3.
fn store(objects: &[Laid], registers: &[usize]) -> Vec<u16> {
    let mut words = vec![0; length(1)];
    let mut store = Store::of(&mut words).unwrap();
    let mut ends = vec![1];
    for (start, size, links) in objects {
        store.set_object(*start, *size, links.len());
        links.iter().enumerate().for_each(|(i, &target)| store.set_link(*start, i, target));
        ends.push(start + size);
    }
    let starts: Vec<usize> = objects.iter().map(|laid| laid.0).chain([64]).collect();
    let mut next = 0;
    for (&g, &end) in ends.iter().zip(&starts).rev().filter(|(g, end)| g < end) {
        store.set_run(g, end - g, next);
        next = g;
    }
    store.set_first_run(next);
    registers.iter().enumerate().for_each(|(r, &object)| store.set_register(3, r, object));
    assert_eq!(judge(&words), 0);
    words
}

fn verdict(first: &[u16], second: &[u16], stretches: &[(usize, usize)]) -> u16 {
    let stretches: Vec<Stretch> = stretches.iter().map(|&(start, length)| Stretch::new(start, length)).collect();
    let mut scratch = vec![0x5aa5; scratch_words(1)];
    let result = judge_report(first, second, &report_bytes(&stretches), &mut scratch);
    assert!(scratch.iter().all(|&word| word == 0), "scratch after {stretches:?}");
    result
}

/// The first object is held and links to the one of 2 granules at 10; the others are lost: 3 granules at 3, one at 6, one at 12, and 51 up to the
/// end. Granules 7 to 9 are a run.
const OBJECTS: [Laid; 6] = [(1, 2, &[10]), (3, 3, &[]), (6, 1, &[]), (10, 2, &[]), (12, 1, &[10]), (13, 51, &[])];

#[test]
fn stretches_by_hand() {
    let image = store(&OBJECTS, &[0, 1]);
    let right: [&[(usize, usize)]; 4] = [
        &[(3, 4), (12, 52)],
        &[(3, 3), (6, 1), (12, 1), (13, 51)],
        &[(3, 3), (6, 1), (12, 52)],
        &[(3, 4), (12, 1), (13, 51)],
    ];
    for stretches in right {
        assert_eq!(verdict(&image, &image, stretches), 0, "{stretches:?}");
    }
    let bad: [&[(usize, usize)]; 21] = [
        &[(6, 1), (3, 3), (12, 52)],
        &[(12, 52), (3, 4)],
        &[(3, 4), (6, 1), (12, 52)],
        &[(3, 3), (3, 4), (12, 52)],
        &[(3, 3), (3, 3), (6, 1), (12, 52)],
        &[(3, 4), (12, 52), (13, 51)],
        &[(3, 0), (3, 4), (12, 52)],
        &[(0, 0), (3, 4), (12, 52)],
        &[(3, 4), (12, 52), (64, 0)],
        &[(4, 3), (12, 52)],
        &[(3, 2), (6, 1), (12, 52)],
        &[(3, 3), (6, 1), (12, 51)],
        &[(3, 5), (12, 52)],
        &[(3, 7), (12, 52)],
        &[(3, 9), (12, 52)],
        &[(3, 4), (7, 3), (12, 52)],
        &[(3, 4), (9, 3), (12, 52)],
        &[(0, 1), (3, 4), (12, 52)],
        &[(0, 3), (3, 4), (12, 52)],
        &[(3, 4), (12, 53)],
        &[(3, 4), (12, 52), (64, 1)],
    ];
    for stretches in bad {
        assert_eq!(verdict(&image, &image, stretches), 12, "{stretches:?}");
    }
}

/// Start and length may add up to 65,536 and more: such a stretch ends behind the store, and not before its own start.
#[test]
fn lengths_do_not_wrap() {
    let image = store(&OBJECTS, &[0, 1]);
    for (start, length) in
        [(3, 65_533), (3, 65_534), (12, 65_525), (13, 65_523), (13, 65_535), (65_535, 1), (1, 65_535)]
    {
        assert_eq!(verdict(&image, &image, &[(start, length)]), 12, "{start}, {length}");
        assert_eq!(verdict(&image, &image, &[(3, 4), (start, length), (12, 52)]), 12, "{start}, {length}");
    }
}

#[test]
fn the_lowest_number() {
    let image = store(&OBJECTS, &[0, 1]);
    let all: [(&[(usize, usize)], u16); 10] = [
        (&[], 14),
        (&[(3, 4)], 14),
        (&[(3, 3), (12, 52)], 14),
        (&[(1, 6), (12, 52)], 13),
        (&[(3, 4), (10, 2), (12, 52)], 13),
        (&[(3, 4), (10, 54)], 13),
        (&[(10, 2)], 13),
        (&[(1, 2), (3, 5)], 12),
        (&[(1, 2), (12, 52), (64, 1)], 12),
        (&[(10, 2), (3, 4)], 12),
    ];
    for (stretches, number) in all {
        assert_eq!(verdict(&image, &image, stretches), number, "{stretches:?}");
    }
}

/// What is lost goes by the first image, what is whole and held by the second.
#[test]
fn each_image_for_itself() {
    let second = store(&OBJECTS, &[1]);
    let all: &[(usize, usize)] = &[(3, 4), (12, 52)];
    // Lost where the second image has the inside of an object, its start, a run, and an object that is held.
    assert_eq!(verdict(&store(&[(20, 1, &[])], &[]), &second, all), 0);
    assert_eq!(verdict(&store(&[(20, 1, &[])], &[]), &second, &[(13, 51)]), 0);
    assert_eq!(verdict(&store(&[(13, 2, &[])], &[]), &second, all), 0);
    assert_eq!(verdict(&store(&[(8, 1, &[])], &[]), &second, all), 14);
    assert_eq!(verdict(&store(&[(10, 1, &[])], &[]), &second, all), 14);
    // Held in the first image, and not in the second.
    assert_eq!(verdict(&store(&OBJECTS, &[1, 3, 6, 12, 13]), &second, &[]), 0);
    assert_eq!(verdict(&store(&OBJECTS, &[1, 3, 6, 12, 13]), &second, all), 0);
    // Held in the second image, and not in the first.
    assert_eq!(verdict(&store(&OBJECTS, &[]), &second, &[(1, 6), (10, 54)]), 13);
    assert_eq!(verdict(&store(&OBJECTS, &[]), &second, all), 14);
    // No object at all.
    let fresh = store(&[], &[]);
    assert_eq!(
        (verdict(&fresh, &second, &[]), verdict(&fresh, &fresh, &[]), verdict(&second, &fresh, &[])),
        (0, 0, 14)
    );
    assert_eq!(verdict(&fresh, &fresh, &[(1, 63)]), 12);
}

/// Rings, an object that links to itself, the same link twice, and a chain along all granules, up or down.
#[test]
fn chains_of_all_shapes() {
    let ring: [Laid; 4] = [(1, 1, &[2, 2]), (2, 1, &[3, 2]), (3, 1, &[1, 3]), (4, 60, &[1, 4, 4])];
    assert_eq!(verdict(&store(&ring, &[3]), &store(&ring, &[2]), &[(4, 60)]), 0);
    assert_eq!(verdict(&store(&ring, &[]), &store(&ring, &[]), &[(1, 63)]), 0);
    for held in 1..4 {
        assert_eq!(verdict(&store(&ring, &[]), &store(&ring, &[4]), &[(held, 1)]), 13, "{held}");
    }
    let links: Vec<[usize; 2]> = (1..64).map(|g| [g - 1, (g + 1) % 64]).collect();
    for along in [0, 1] {
        let objects: Vec<Laid> = (1..64).map(|g| (g, 1, &links[g - 1][along..=along])).collect();
        let last = if along == 0 { 1 } else { 63 };
        let all_held = store(&objects, &[64 - last]);
        assert_eq!(verdict(&all_held, &all_held, &[]), 0);
        assert_eq!(verdict(&all_held, &all_held, &[(last, 1)]), 13);
    }
}

/// "from G/8 words of scratch, again zero afterwards. A scratch of G words is a misfit", as is any other, which is left as it was.
#[test]
fn scratches_of_every_length() {
    assert_eq!([1, 2, 512].map(scratch_words), [8, 16, 4_096]);
    let image = store(&OBJECTS, &[0, 1]);
    let report = report_bytes(&[Stretch::new(3, 4), Stretch::new(12, 52)]);
    for words in 0..=2 * 64 {
        let mut scratch = vec![0x5aa5; words];
        let result = judge_report(&image, &image, &report, &mut scratch);
        let wanted = if words == 8 { (0, vec![0; words]) } else { (1, vec![0x5aa5; words]) };
        assert_eq!((result, scratch), wanted, "{words} words");
    }
}

#[test]
fn refusals_leave_the_scratch() {
    let mut random = Random::new(61);
    let (mut results, mut dirty) = ([0; 3], 0);
    for number in 0..4_000 {
        let case = report_case(&mut random, 1 + number as usize % 3, 32 * number + 7 + number % 2);
        assert_eq!(case.after, case.scratch, "{}", case.name);
        results[usize::from(case.result)] += 1;
        dirty += usize::from(case.scratch.iter().any(|&word| word != 0));
    }
    assert!(results[0] == 0 && results[1] >= 1_900 && results[2] >= 1_900 && dirty > 2_000, "{results:?}, {dirty}");
}

/// How many links the longest chain has that leads to no object before its end by fewer.
fn longest_chain(image: Image) -> usize {
    let mut reached: BTreeSet<usize> = image.registers().filter(|&g| g != 0).collect();
    let mut ends: Vec<usize> = reached.iter().copied().collect();
    let mut links = 0;
    while !ends.is_empty() {
        let next = ends.iter().flat_map(|&g| image.object(g).links).map(|&g| usize::from(g));
        ends = next.filter(|&g| g != 0 && reached.insert(g)).collect();
        links += usize::from(!ends.is_empty());
    }
    links
}

/// Two ways to follow chains, on images of all makers; and what these images show.
#[test]
fn two_ways_to_follow_chains() {
    let mut random = Random::new(62);
    let mut shown: BTreeMap<&str, usize> = BTreeMap::new();
    for round in 0..3_000 {
        let words = any_image(&mut random, 1 + round % 4);
        let image = Image::of(&words).unwrap();
        let reached = within_reach(image);
        let by_granule: BTreeSet<usize> = (0..image.granules()).filter(|&g| reached[g]).collect();
        assert_eq!(by_granule, reached_by_chains(image));
        let longest = longest_chain(image);
        let linked = |test: fn(usize, &[u16]) -> bool| {
            image.objects().any(|o| reached[o.start] && test(o.start, o.links)) as usize
        };
        let twice = |_: usize, links: &[u16]| (1..links.len()).any(|i| links[i] != 0 && links[..i].contains(&links[i]));
        *shown.entry("a chain of 10 links").or_default() += usize::from(longest >= 10);
        *shown.entry("a chain of 100 links").or_default() += usize::from(longest >= 100);
        *shown.entry("an object that links to itself").or_default() += linked(|g, links| links.contains(&(g as u16)));
        *shown.entry("the same link twice").or_default() += linked(twice);
        *shown.entry("an object of 30 links").or_default() += linked(|_, links| links.len() >= 30);
        *shown.entry("in a cycle").or_default() += usize::from(image.is_running());
        *shown.entry("something out of reach").or_default() += usize::from(image.starts().any(|g| !reached[g]));
    }
    println!("{shown:?}");
    assert!(shown.values().all(|&images| images >= 50), "{shown:?}");
}

/// "a report without a bad stretch, of exactly what our own finish freed, is always acceptable, if in one list of steps an accepted begin got
/// the first image and the next accepted finish the second". The images are the same whatever the batches are.
#[test]
fn reports_of_our_own_finishes() {
    let mut random = Random::new(63);
    let mut shown = BTreeMap::new();
    for round in 0..1_500 {
        let k = 1 + round % 4;
        let image = any_image(&mut random, k);
        let steps = list_with_cycles(&mut random, &mut image.clone(), 80);
        for cycle in cycles(&image, &steps, unjudged) {
            let got = |place: usize, random: &mut Random| {
                let mut got = image.clone();
                for (steps, answer_words) in batches(random, &steps[..8 * place]) {
                    batch(&mut got, &steps, &mut vec![0; answer_words]);
                }
                got
            };
            assert!(got(cycle.begin, &mut random) == cycle.first && got(cycle.finish, &mut random) == cycle.second);
            let freed = cycle.freed();
            for stretches in [some_joined(&mut random, &freed), joined(&freed, || true), freed] {
                let mut scratch = vec![1; scratch_words(k)];
                let report = report_bytes(&stretches);
                assert_eq!(judge_report(&cycle.first, &cycle.second, &report, &mut scratch), 0, "round {round}");
            }
            for (what, is_shown) in cycle.shows() {
                *shown.entry(what).or_insert(0) += usize::from(is_shown);
            }
        }
    }
    println!("{shown:?}");
    assert!(shown["cycles"] >= 3_000 && shown.values().all(|&cycles| cycles >= 50), "{shown:?}");
}

/// A condition of 12, 13 or 14.
type Applies = fn(&Reported) -> bool;

/// The three, in the order in which they are asked.
type Conditions = [(u16, Applies); 3];

const BAD: (u16, Applies) = (12, has_bad_stretch);
const HELD: (u16, Applies) = (13, frees_held_object);
const MISSED: (u16, Applies) = (14, misses_lost_object);

/// What is asked of a stretch, given for each granule the granules of its object.
type IsGood = fn(&[Option<Range<usize>>], Range<usize>) -> bool;

/// A bad stretch where two in a row must be `in_order` and each one `is_good`.
fn bad(reported: &Reported, image: Image, in_order: fn(Range<usize>, Range<usize>) -> bool, is_good: IsGood) -> bool {
    let objects = objects_by_granule(image);
    let all: Vec<Range<usize>> = reported.stretches.iter().map(|stretch| stretch.granules()).collect();
    all.windows(2).any(|pair| !in_order(pair[0].clone(), pair[1].clone()))
        || all.into_iter().any(|stretch| !is_good(&objects, stretch))
}

fn rise(last: Range<usize>, next: Range<usize>) -> bool {
    last.end <= next.start
}

/// Every granule is in an object that passes.
fn of(objects: &[Option<Range<usize>>], stretch: Range<usize>, passes: impl Fn(&Option<Range<usize>>) -> bool) -> bool {
    objects.get(stretch).is_some_and(|objects| objects.iter().all(passes))
}

fn whole(objects: &[Option<Range<usize>>], stretch: Range<usize>) -> bool {
    let Range { start, end } = stretch;
    let is_whole = |o: &Option<Range<usize>>| o.as_ref().is_some_and(|o| start <= o.start && o.end <= end);
    start < end && of(objects, start..end, is_whole)
}

const WRONG_STRETCHES: [(&str, Applies); 14] = [
    ("any order", |r| bad(r, r.second, |_, _| true, whole)),
    ("only starts rise", |r| bad(r, r.second, |last, next| last.start < next.start, whole)),
    ("touching refused", |r| bad(r, r.second, |last, next| last.end < next.start, whole)),
    ("one object a stretch", |r| {
        bad(r, r.second, rise, |objects, s| objects.get(s.start).is_some_and(|o| *o == Some(s.clone())))
    }),
    ("a start inside", |r| {
        bad(r, r.second, rise, |objects, s| {
            !s.is_empty() && of(objects, s.clone(), |o| o.as_ref().is_some_and(|o| o.end <= s.end))
        })
    }),
    ("an end inside", |r| {
        bad(r, r.second, rise, |objects, s| {
            !s.is_empty() && of(objects, s.clone(), |o| o.as_ref().is_some_and(|o| s.start <= o.start))
        })
    }),
    ("free granules", |r| {
        bad(r, r.second, rise, |objects, s| {
            let is_whole = |o: &Range<usize>| s.start <= o.start && o.end <= s.end;
            s.start > 0 && !s.is_empty() && of(objects, s.clone(), |o| o.as_ref().is_none_or(is_whole))
        })
    }),
    ("free granules behind", |r| {
        bad(r, r.second, rise, |objects, s| {
            let last = s.clone().rev().find(|&g| objects.get(g).is_none_or(|o| o.is_some()));
            last.is_some_and(|last| whole(objects, s.start..last + 1))
        })
    }),
    ("granule 0", |r| bad(r, r.second, rise, |objects, s| s == (0..1) || whole(objects, s.start.max(1)..s.end))),
    ("no granule", |r| bad(r, r.second, rise, |objects, s| s.is_empty() || whole(objects, s))),
    ("no granule at an object", |r| {
        bad(r, r.second, rise, |objects, s| {
            let is_start = objects.get(s.start).is_some_and(|o| o.as_ref().is_some_and(|o| o.start == s.start));
            s.is_empty() && is_start || whole(objects, s)
        })
    }),
    ("past the end", |r| {
        bad(r, r.second, rise, |objects, s| {
            s.start < objects.len() && whole(objects, s.start..s.end.min(objects.len()))
        })
    }),
    ("wrapping", |r| {
        let in_order = |last: Range<usize>, next: Range<usize>| last.end % 65_536 <= next.start;
        bad(r, r.second, in_order, |objects, s| s.end >= 65_536 || whole(objects, s))
    }),
    ("objects of the first image", |r| bad(r, r.first, rise, whole)),
];

/// What registers hold, and what is reached from it by so many links.
fn reached_by(registers: Image, links: Image, most: usize) -> BTreeSet<usize> {
    let is_object = |g: &usize| links.is_start(*g);
    let mut reached: BTreeSet<usize> = registers.registers().filter(is_object).collect();
    for _ in 0..most {
        let next: Vec<usize> = reached.iter().flat_map(|&g| links.object(g).links).map(|&g| usize::from(g)).collect();
        reached.extend(next.into_iter().filter(|&g| g != 0));
    }
    reached
}

fn frees(reported: &Reported, held: BTreeSet<usize>) -> bool {
    let covered = covered(reported);
    held.into_iter().any(|g| reported.second.is_start(g) && covered[g])
}

const WRONG_HELD: [(&str, Applies); 7] = [
    ("nothing is held", |_| false),
    ("only by registers", |r| frees(r, reached_by(r.second, r.second, 0))),
    ("by one link", |r| frees(r, reached_by(r.second, r.second, 1))),
    ("by two links", |r| frees(r, reached_by(r.second, r.second, 2))),
    ("held in the first image", |r| frees(r, reached_by(r.first, r.first, 64))),
    ("along the first image's links", |r| frees(r, reached_by(r.second, r.first, 64))),
    ("only where a stretch starts", |r| {
        let reached = within_reach(r.second);
        r.stretches.iter().any(|stretch| reached.get(stretch.granules().start) == Some(&true))
    }),
];

fn misses(reported: &Reported, mut lost: impl Iterator<Item = usize>) -> bool {
    let covered = covered(reported);
    lost.any(|g| !covered[g])
}

const WRONG_MISSED: [(&str, Applies); 7] = [
    ("nothing is lost", |_| false),
    ("lost in the second image", |r| {
        let reached = within_reach(r.second);
        misses(r, r.second.starts().filter(|&g| !reached[g]))
    }),
    ("out of reach in the second image", |r| {
        let reached = within_reach(r.second);
        misses(r, r.first.starts().filter(|&g| !reached[g]))
    }),
    ("out of reach in both images", |r| {
        let [first, second] = [r.first, r.second].map(within_reach);
        misses(r, r.first.starts().filter(|&g| !first[g] && !second[g]))
    }),
    ("all that registers do not hold", |r| {
        let held = reached_by(r.first, r.first, 0);
        misses(r, r.first.starts().filter(|g| !held.contains(g)))
    }),
    ("only where both images have a start", |r| {
        let reached = within_reach(r.first);
        misses(r, r.first.starts().filter(|&g| !reached[g] && r.second.is_start(g)))
    }),
    ("only by a stretch that starts there", |r| {
        let reached = within_reach(r.first);
        let starts: BTreeSet<usize> = r.stretches.iter().map(|stretch| stretch.granules().start).collect();
        r.first.starts().any(|g| !reached[g] && !starts.contains(&g))
    }),
];

const WRONG_ORDERS: [(&str, Conditions); 3] = [
    ("13 before 12", [HELD, BAD, MISSED]),
    ("14 before 13", [BAD, MISSED, HELD]),
    ("14 before 12", [MISSED, BAD, HELD]),
];

type Call = fn(&[u16], &[u16], &[u8], &mut [u16]) -> u16;

/// The call by (vi), which takes G words of scratch and no others.
fn with_g_words(first: &[u16], second: &[u16], report: &[u8], scratch: &mut [u16]) -> u16 {
    let words = reference::cards_of_length(first.len()).map_or(0, scratch_words);
    if scratch.len() != 8 * words {
        return 1;
    }
    let result = judge_report(first, second, report, &mut scratch[..words]);
    scratch.iter_mut().filter(|_| !matches!(result, 1 | 2)).for_each(|word| *word = 0);
    result
}

/// The right call, but that a part of the scratch is left as it was.
fn left(part: fn(usize) -> Range<usize>, first: &[u16], second: &[u16], report: &[u8], scratch: &mut [u16]) -> u16 {
    let was = scratch.to_vec();
    let result = judge_report(first, second, report, scratch);
    let part = part(was.len());
    scratch[part.clone()].copy_from_slice(&was[part]);
    result
}

/// Calls that are wrong in what they take or in what they leave.
const WRONG_CALLS: [(&str, Call); 16] = [
    ("any second image", |first, second, report, scratch| {
        let is_damaged = first.len() == second.len() && judge(second) == 2;
        judge_report(first, if is_damaged { first } else { second }, report, scratch)
    }),
    ("any first image", |first, second, report, scratch| {
        let is_damaged = first.len() == second.len() && judge(first) == 2;
        judge_report(if is_damaged { second } else { first }, second, report, scratch)
    }),
    ("images of unequal length", |first, second, report, scratch| match judge_report(first, second, report, scratch) {
        1 if first.len() != second.len() => judge_report(first, first, report, scratch),
        result => result,
    }),
    ("a part record left out", |first, second, report, scratch| {
        judge_report(first, second, &report[..report.len() / STRETCH_BYTES * STRETCH_BYTES], scratch)
    }),
    ("a longer scratch", |first, second, report, scratch| {
        let words = reference::cards_of_length(first.len()).map_or(0, scratch_words).min(scratch.len());
        judge_report(first, second, report, &mut scratch[..words])
    }),
    ("any scratch", |first, second, report, _| {
        let words = reference::cards_of_length(first.len()).map_or(0, scratch_words);
        judge_report(first, second, report, &mut vec![0; words])
    }),
    ("G words of scratch", with_g_words),
    ("G words of scratch too", |first, second, report, scratch| match judge_report(first, second, report, scratch) {
        1 => with_g_words(first, second, report, scratch),
        result => result,
    }),
    ("2 before 1", |first, second, report, scratch| match (judge(first), judge(second)) {
        (2, _) | (_, 2) => 2,
        _ => judge_report(first, second, report, scratch),
    }),
    ("a scratch left as it was", |first, second, report, scratch| {
        judge_report(first, second, report, &mut scratch.to_vec())
    }),
    ("a scratch with its first half", |first, second, report, scratch| {
        left(|words| 0..words / 2, first, second, report, scratch)
    }),
    ("a scratch with its second half", |first, second, report, scratch| {
        left(|words| words / 2..words, first, second, report, scratch)
    }),
    ("a scratch with its last word", |first, second, report, scratch| {
        left(|words| words.saturating_sub(1)..words, first, second, report, scratch)
    }),
    ("a scratch left as it was on 12", |first, second, report, scratch| {
        let was = scratch.to_vec();
        let result = judge_report(first, second, report, scratch);
        if result == 12 {
            scratch.copy_from_slice(&was);
        }
        result
    }),
    ("a scratch cleared on 2", |first, second, report, scratch| {
        let result = judge_report(first, second, report, scratch);
        scratch.iter_mut().filter(|_| result == 2).for_each(|word| *word = 0);
        result
    }),
    ("a scratch cleared on 1", |first, second, report, scratch| {
        let result = judge_report(first, second, report, scratch);
        scratch.iter_mut().filter(|_| result == 1).for_each(|word| *word = 0);
        result
    }),
];

fn is_told(case: &ReportCase, wrong: impl Fn(&[u16], &[u16], &[u8], &mut [u16]) -> u16) -> bool {
    let mut scratch = case.scratch.clone();
    let result = wrong(&case.first, &case.second, &case.report, &mut scratch);
    (result, scratch) != (case.result, case.after.clone())
}

/// The right call but for what it asks of images and a report that fit, and of which none is damaged.
fn by(conditions: Conditions, case: &ReportCase) -> bool {
    if matches!(case.result, 1 | 2) {
        return false;
    }
    let image = |words| Image::of(words).unwrap();
    let reported =
        Reported { first: image(&case.first), second: image(&case.second), stretches: stretches(&case.report) };
    let number = conditions.iter().find(|(_, applies)| applies(&reported)).map_or(0, |&(number, _)| number);
    number != case.result
}

/// All wrong conditions by name.
fn wrong_conditions() -> Vec<(&'static str, Conditions)> {
    let bad = WRONG_STRETCHES.map(|(name, applies)| (name, [(12, applies), HELD, MISSED]));
    let held = WRONG_HELD.map(|(name, applies)| (name, [BAD, (13, applies), MISSED]));
    let missed = WRONG_MISSED.map(|(name, applies)| (name, [BAD, HELD, (14, applies)]));
    [&bad[..], &held, &missed, &WRONG_ORDERS].concat()
}

/// How many cases tell each wrong implementation.
fn told(cases: &[ReportCase]) -> BTreeMap<&'static str, usize> {
    assert!(cases.iter().all(|case| !is_told(case, judge_report)), "the right one is told");
    assert!(cases.iter().all(|case| !by([BAD, HELD, MISSED], case)), "the right conditions are told");
    let count = |is_told: &dyn Fn(&ReportCase) -> bool| cases.iter().filter(|case| is_told(case)).count();
    let rules = wrong_conditions().into_iter().map(|(name, rules)| (name, count(&|case| by(rules, case))));
    let calls = WRONG_CALLS.iter().map(|(name, call)| (*name, count(&|case| is_told(case, call))));
    rules.chain(calls).collect()
}

/// So many cases tell each of the 47, but for those that are named.
fn assert_told(cases: &[ReportCase], at_least: usize, untold: &[&str]) {
    let told = told(cases);
    println!("{told:?}");
    assert_eq!(told.len(), 47);
    for (name, times) in told {
        assert_eq!(times >= at_least, !untold.contains(&name), "{name}: told by {times}");
    }
}

/// Wrong ones that no vector tells: the drawn cases must.
const UNTOLD_BY_VECTORS: [&str; 8] = [
    "a start inside",
    "by one link",
    "by two links",
    "no granule",
    "no granule at an object",
    "only where a stretch starts",
    "only where both images have a start",
    "out of reach in both images",
];

/// Request (vi)'s, read in both ways, request (viii)'s, and all of them.
#[test]
fn the_vectors_tell_wrong_reports() {
    let older = parse_older_reports(include_str!("../../vectors/document_02/06-vi.txt")).unwrap().concat();
    let newer = parse_reports(include_str!("../../vectors/document_02/08-viii.txt")).unwrap();
    let not_by_older = ["free granules", "free granules behind", "past the end"];
    let not_by_newer = [
        "2 before 1",
        "G words of scratch too",
        "a longer scratch",
        "granule 0",
        "images of unequal length",
        "only starts rise",
    ];
    assert_told(&older, 1, &[&UNTOLD_BY_VECTORS[..], &not_by_older].concat());
    assert_told(&newer, 1, &[&UNTOLD_BY_VECTORS[..], &not_by_newer].concat());
    assert_told(&[older, newer].concat(), 1, &UNTOLD_BY_VECTORS);
}

#[test]
fn drawn_cases_tell_wrong_reports() {
    assert_told(&reports(16, 4_800).collect::<Vec<_>>(), 15, &[]);
}

/// They tell all but one.
#[test]
fn the_cases_of_the_gate_tell_wrong_reports() {
    let cases = reports_of_the_gate();
    assert_eq!(cases.len(), 32);
    assert_told(&cases, 1, &["out of reach in both images"]);
}
