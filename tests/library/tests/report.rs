//! `judge_report` of the proved library against the second implementation, memory for memory, and on the reports of the library's own
//! finishes.

use std::collections::BTreeMap;

use library::guarded::Guarded;
use reference::bounded::FORGETFUL;
use reference::generate::{batches, damage};
use reference::image::{Image, Object, Store};
use reference::layout::{CARD_GRANULES, LARGEST_OBJECT};
use reference::made::{far, fresh_image, linked, running};
use reference::overflow::{lists, overflowing};
use reference::random::Random;
use reference::record::{Record, BEGIN, FINISH, RECORD_BYTES};
use reference::report::{joined, report_bytes, within_reach, Stretch};
use reference::reports::{any_image, any_scratch, cycles, list_with_cycles, report_case, some_joined, wrong_scratches};
use reference::reports::{Cycle, Drawn};
use reference::scratch_words;
use reference::spoils::{BAD, HELD, MISSED, UNREPORTED};
use reference::vectors::{parse_older_reports, parse_reports, ReportCase};

const GUARD: u16 = 0xa55a;
const BYTE_GUARD: u8 = 0x77;

/// The number of no object.
const NONE: usize = usize::MAX;

/// How often calls came to each result.
#[derive(Debug, Default)]
struct Seen {
    results: BTreeMap<u16, usize>,
}

impl Seen {
    /// One call of both: same result, same scratch, and nothing else touched.
    fn same(&mut self, first: &[u16], second: &[u16], report: &[u8], scratch: &[u16]) -> u16 {
        let lent = [Guarded::new(first, GUARD), Guarded::new(second, GUARD)];
        let lent_report = Guarded::new(report, BYTE_GUARD);
        let mut lent_scratch = Guarded::new(scratch, GUARD);
        let result =
            library::judge_report(lent[0].items(), lent[1].items(), lent_report.items(), lent_scratch.items_mut());

        let mut other = scratch.to_vec();
        let wanted = reference::judge_report(first, second, report, &mut other);
        assert_eq!(result, wanted, "{} and {} words, report {report:02x?}", first.len(), second.len());
        assert!(lent_scratch.items() == other, "{} words of scratch after {result}", scratch.len());
        assert!(lent_scratch.guards_stand(), "words outside the scratch");
        assert!(lent.iter().all(Guarded::guards_stand) && lent_report.guards_stand(), "guards overwritten");
        assert!(lent[0].items() == first && lent[1].items() == second, "words of an image written");
        assert!(lent_report.items() == report, "bytes of the report written");
        *self.results.entry(result).or_insert(0) += 1;
        result
    }

    fn same_case(&mut self, case: &ReportCase) {
        let result = self.same(&case.first, &case.second, &case.report, &case.scratch);
        assert_eq!(result, case.result, "case {}", case.name);
    }

    fn same_drawn(&mut self, random: &mut Random, drawn: &Drawn) -> u16 {
        let k = reference::cards_of_length(drawn.first.len()).unwrap();
        let scratch = any_scratch(random, scratch_words(k));
        self.same(&drawn.first, &drawn.second, &report_bytes(&drawn.stretches), &scratch)
    }

    /// Reports on one image: of all that is lost, of that and each of these objects, which are held, and of all that is lost but for some object.
    fn same_around(&mut self, random: &mut Random, image: &[u16], held: &[Stretch]) {
        let (_, lost) = held_and_lost(image);
        let scratch = any_scratch(random, scratch_words(reference::cards_of_length(image.len()).unwrap()));
        assert_eq!(self.same(image, image, &report_bytes(&lost), &scratch), 0);
        for &object in held {
            let mut more = lost.clone();
            more.push(object);
            more.sort_by_key(|stretch| stretch.start);
            assert_eq!(self.same(image, image, &report_bytes(&more), &scratch), 13, "{object:?}");
            let mut less = lost.clone();
            if !less.is_empty() {
                let missed = less.remove(random.below(lost.len()));
                assert_eq!(self.same(image, image, &report_bytes(&less), &scratch), 14, "{missed:?}");
            }
        }
    }

    fn all_at_least(&self, results: &[u16], least: usize) {
        println!("{self:?}");
        assert!(results.iter().all(|result| self.results.get(result).is_some_and(|&calls| calls >= least)), "{self:?}");
    }
}

#[test]
fn drawn_cases() {
    let mut random = Random::new(301);
    let mut seen = Seen::default();
    for number in 0..9_600 {
        seen.same_case(&report_case(&mut random, 1 + number as usize / 32 % 4, number));
    }
    seen.all_at_least(&[0, 1, 2, 12, 13, 14], 500);
}

/// The image that the library's own batches leave after some steps, which are cut into random batches with misfits between.
fn got(random: &mut Random, image: &[u16], steps: &[u8]) -> Vec<u16> {
    let mut image = image.to_vec();
    for (steps, answer_words) in batches(random, steps) {
        library::batch(&mut image, &steps, &mut vec![0; answer_words]);
    }
    image
}

/// What the finish of a cycle has freed, object by object, with neighbours joined, and with some of them; and that report made wrong in every
/// way.
fn judge_cycle(random: &mut Random, cycle: &Cycle, seen: &mut Seen, spoiled: &mut Seen) {
    let freed = cycle.freed();
    for stretches in [freed.clone(), joined(&freed, || true), some_joined(random, &freed)] {
        let drawn = Drawn { first: cycle.first.clone(), second: cycle.second.clone(), stretches };
        assert_eq!(seen.same_drawn(random, &drawn), 0, "the report of a finish");
        let ways = [HELD, MISSED, UNREPORTED].into_iter().chain(BAD.map(|(_, spoil)| spoil));
        for spoil in ways {
            let mut drawn = drawn.clone();
            if drawn.spoil(random, spoil) {
                spoiled.same_drawn(random, &drawn);
            }
        }
    }
}

/// "always acceptable, if in one list of steps an accepted begin got the first image and the next accepted finish the second"
#[test]
fn reports_of_the_librarys_own_finishes() {
    let mut random = Random::new(302);
    let (mut seen, mut spoiled) = (Seen::default(), Seen::default());
    let mut shown: BTreeMap<&str, usize> = BTreeMap::new();
    for round in 0..500 {
        let image = any_image(&mut random, 1 + round % 4);
        let steps = list_with_cycles(&mut random, &mut image.clone(), 60);
        for cycle in cycles(&image, &steps, library::batch) {
            let before = |place: usize| &steps[..RECORD_BYTES * place];
            assert!(got(&mut random, &image, before(cycle.begin)) == cycle.first, "the image that a begin got");
            assert!(got(&mut random, &image, before(cycle.finish)) == cycle.second, "the image that a finish got");
            judge_cycle(&mut random, &cycle, &mut seen, &mut spoiled);
            for (what, is_shown) in cycle.shows() {
                *shown.entry(what).or_default() += usize::from(is_shown);
            }
        }
    }
    println!("{shown:?}");
    assert!(shown["cycles"] >= 1_000 && shown.values().all(|&cycles| cycles >= 50), "{shown:?}");
    seen.all_at_least(&[0], 3_000);
    spoiled.all_at_least(&[0, 12, 13, 14], 200);
}

/// A few large stores, full of cues, with long chains and with objects of many links.
#[test]
fn large_stores() {
    let mut random = Random::new(303);
    let (mut seen, mut spoiled) = (Seen::default(), Seen::default());
    for k in [8, 16, 64, 200, 511, 512] {
        for make in [far, any_image, any_image] {
            let image = make(&mut random, k);
            let steps = list_with_cycles(&mut random, &mut image.clone(), 30);
            for cycle in cycles(&image, &steps, library::batch).iter().take(2) {
                judge_cycle(&mut random, cycle, &mut seen, &mut spoiled);
            }
        }
    }
    seen.all_at_least(&[0], 50);
    spoiled.all_at_least(&[0, 12, 13, 14], 10);
}

/// Every object hangs on one register by a chain of all that come before it, up, down or in a ring. All of it is held; with the link cut off that
/// one object has, all behind it is lost.
#[test]
fn chains_through_the_whole_store() {
    let mut seen = Seen::default();
    for (k, size) in [(1_usize, 1), (2, 3), (64, 1), (512, 1), (512, 7)] {
        let last = (64 * k - 1).div_ceil(size) - 1;
        let up = linked(k, size, 2, Some(0), |n, i| n + i);
        let down = linked(k, size, 2, Some(last), |n, _| n.wrapping_sub(1));
        let ring = linked(k, size, 2, Some(last / 2), |n, i| if i == 0 { (n + 1) % (last + 1) } else { NONE });
        let scratch = vec![7; scratch_words(k)];
        for image in [&up, &down, &ring] {
            let objects: Vec<usize> = Image::of(image).unwrap().starts().collect();
            assert_eq!(seen.same(image, image, &[], &scratch), 0);
            for &g in [&objects[..2], &objects[last - 1..], &objects[last / 2..][..1]].concat().iter() {
                let object = Stretch::new(g, size.min(64 * k - g));
                assert_eq!(seen.same(image, image, &object.to_bytes(), &scratch), 13, "granule {g} of {k} cards");
            }
        }
        let half = last / 2;
        let cut = linked(k, size, 2, Some(0), |n, i| if i == 1 && n != half { n + 1 } else { NONE });
        let behind = 1 + size * (half + 1);
        let lost = Stretch::new(behind, 64 * k - behind);
        assert_eq!(seen.same(&cut, &cut, &lost.to_bytes(), &scratch), 0);
        assert_eq!(seen.same(&cut, &cut, &[], &scratch), 14);
        assert_eq!(seen.same(&cut, &up, &lost.to_bytes(), &scratch), 13);
        assert_eq!(seen.same(&up, &cut, &lost.to_bytes(), &scratch), 0);
        assert_eq!(seen.same(&up, &cut, &[], &scratch), 0);
    }
    seen.all_at_least(&[0, 13, 14], 5);
}

/// The largest objects with all the links that they can have: the last link of each goes to the next.
#[test]
fn objects_of_many_links() {
    let mut seen = Seen::default();
    for k in [17, 64, 512] {
        let links = 4 * LARGEST_OBJECT - 2;
        let held_at = |held| linked(k, LARGEST_OBJECT, links, held, |n, i| if i + 1 == links { n + 1 } else { n });
        let (image, unheld) = (held_at(Some(0)), held_at(None));
        let scratch = vec![7; scratch_words(k)];
        let objects: Vec<usize> = Image::of(&image).unwrap().starts().collect();
        assert_eq!(seen.same(&image, &image, &[], &scratch), 0);
        for &g in &objects {
            let object = Stretch::new(g, LARGEST_OBJECT.min(64 * k - g));
            assert_eq!(seen.same(&image, &image, &object.to_bytes(), &scratch), 13);
        }
        let all = Stretch::new(1, 64 * k - 1);
        assert_eq!(seen.same(&unheld, &unheld, &all.to_bytes(), &scratch), 0);
        assert_eq!(seen.same(&unheld, &image, &all.to_bytes(), &scratch), 13);
        assert_eq!(seen.same(&image, &unheld, &all.to_bytes(), &scratch), 0);
        assert_eq!(seen.same(&unheld, &image, &[], &scratch), 14);
    }
}

/// Objects that link to many others at once, as a tree or at random: thousands are seen before their own links are followed. Of what is lost a report
/// has all, or all but one object; and each of some objects that are held is freed.
#[test]
fn many_objects_at_once() {
    let mut random = Random::new(310);
    let mut seen = Seen::default();
    for (k, size, links) in [(8, 1, 2), (64, 1, 2), (64, 4, 14), (512, 1, 2), (512, 4, 14), (512, 16, 62), (512, 2, 3)]
    {
        let objects = (64 * k - 1_usize).div_ceil(size);
        let tree = linked(k, size, links, Some(0), |n, i| links * n + 1 + i);
        let any = linked(k, size, links, Some(objects / 3), |_, _| random.below(objects));
        let few = linked(k, size, links, Some(0), |_, i| if i < 2 { random.below(objects) } else { NONE });
        for image in [tree, any, few] {
            let (held, _) = held_and_lost(&image);
            let some: Vec<Stretch> = (0..8).map(|_| random.pick(&held).unwrap()).collect();
            seen.same_around(&mut random, &image, &some);
        }
    }
    seen.all_at_least(&[0, 13, 14], 20);
}

/// Stores on which a stack of 1,024 entries overflows, and lists through the whole store. The held objects are the lowest, the highest and some others,
/// and some that are reached only by way of one that such a stack has no room for.
#[test]
fn stores_that_overflow_a_stack() {
    let mut random = Random::new(311);
    let (mut seen, mut behind_others) = (Seen::default(), 0);
    for (name, image) in overflowing().into_iter().chain(lists()) {
        println!("{name}");
        let (held, _) = held_and_lost(&image);
        let near = FORGETFUL.run(Image::of(&image).unwrap()).seen;
        let far: Vec<Stretch> = held.iter().copied().filter(|stretch| !near[stretch.granules().start]).collect();
        let picked = [&held, &held, &held, &far, &far, &far].into_iter().filter_map(|from| random.pick(from));
        let some = [&held[..2], &held[held.len() - 2..], &picked.collect::<Vec<_>>()].concat();
        seen.same_around(&mut random, &image, &some);
        behind_others += usize::from(!far.is_empty());
    }
    seen.all_at_least(&[0], 26);
    seen.all_at_least(&[13, 14], 26 * 7);
    assert_eq!(behind_others, 16);
}

/// Two of these stores as first and second image, or one of them with and without its register: nothing that is seen in one counts in the other.
#[test]
fn two_stores_that_overflow_a_stack() {
    let mut random = Random::new(313);
    let mut seen = Seen::default();
    let mut last: Vec<u16> = Vec::new();
    for (_, image) in overflowing().into_iter().chain(lists()) {
        let mut unheld = image.clone();
        Store::of(&mut unheld).unwrap().set_register(0, 0, 0);
        let k = reference::cards_of_length(image.len()).unwrap();
        let (_, lost) = held_and_lost(&image);
        let [lost, all] = [&lost[..], &[Stretch::new(1, CARD_GRANULES * k - 1)]].map(report_bytes);
        let scratch = any_scratch(&mut random, scratch_words(k));
        assert_eq!(seen.same(&unheld, &image, &lost, &scratch), 14);
        assert_eq!(seen.same(&image, &unheld, &lost, &scratch), 0);
        assert_eq!(seen.same(&image, &unheld, &all, &scratch), 0);
        assert_eq!(seen.same(&unheld, &unheld, &all, &scratch), 0);
        assert_eq!(seen.same(&unheld, &image, &all, &scratch), 13);
        if last.len() == image.len() {
            seen.same(&last, &image, &lost, &scratch);
        }
        last = image;
    }
    seen.all_at_least(&[0, 13, 14], 26);
}

/// The objects within reach, and those out of reach, a stretch each.
fn held_and_lost(image: &[u16]) -> (Vec<Stretch>, Vec<Stretch>) {
    let image = Image::of(image).unwrap();
    let reached = within_reach(image);
    let (held, lost): (Vec<_>, Vec<_>) = image.objects().partition(|object| reached[object.start]);
    let stretches = |objects: Vec<Object>| objects.iter().map(|o| Stretch::new(o.start, o.size)).collect();
    (stretches(held), stretches(lost))
}

/// Every start and length near a small store's own, and near 65,536, as the only stretch and behind another.
#[test]
fn every_single_stretch() {
    let mut random = Random::new(304);
    let mut seen = Seen::default();
    for make in [far, far, running, any_image] {
        let image = make(&mut random, 1);
        let scratch = any_scratch(&mut random, scratch_words(1));
        let near_the_top = 65_536 - 70;
        for start in (0..70).chain([near_the_top, 65_535]) {
            for length in (0..70).chain(near_the_top..65_536) {
                let stretch = Stretch::new(start, length);
                seen.same(&image, &image, &stretch.to_bytes(), &scratch);
            }
        }
        let starts: Vec<usize> = Image::of(&image).unwrap().starts().collect();
        let first = Stretch::new(starts[0], Image::of(&image).unwrap().object(starts[0]).size);
        for start in 0..70 {
            for length in 0..20 {
                let report = report_bytes(&[first, Stretch::new(start, length)]);
                seen.same(&image, &image, &report, &scratch);
            }
        }
    }
    seen.all_at_least(&[12, 13], 50);
}

/// Reports of any bytes, short and as long as the store has objects.
#[test]
fn any_bytes() {
    let mut random = Random::new(305);
    let mut seen = Seen::default();
    for round in 0..6_000 {
        let k = 1 + round % 3;
        let (first, second) = (any_image(&mut random, k), any_image(&mut random, k));
        let length = random.weighted(&[(2, 4), (2, 8), (1, 12), (1, 256 * k), (1, 5), (1, 0)]);
        let most = random.weighted(&[(1, 255), (2, 3), (2, 40)]);
        let report: Vec<u8> = (0..length).map(|_| random.from_to(0, most) as u8).collect();
        let scratch = any_scratch(&mut random, scratch_words(k));
        seen.same(&first, &second, &report, &scratch);
    }
    seen.all_at_least(&[0, 1, 12, 14], 50);
}

/// Lengths of each of the four slices, one at a time and several at once, with damage and without: 1 comes before 2.
#[test]
fn lengths() {
    let mut random = Random::new(306);
    let mut seen = Seen::default();
    for k in [1, 2, 3, 64, 511, 512] {
        let image = running(&mut random, k);
        let mut damaged = image.clone();
        damage(&mut random, &mut damaged);
        let other = fresh_image(if k == 512 { 1 } else { k + 1 });
        let (shorter, longer) = (&image[..image.len() - 1], [&image[..], &[0]].concat());
        let images = [&image[..], &damaged, &other, shorter, &longer, &[]];
        let mut scratches = wrong_scratches(k).to_vec();
        scratches.push(scratch_words(k));
        for (first, second) in images.iter().flat_map(|first| images.map(|second| (*first, second))) {
            for report in [0, 1, 2, 3, 4, 6].map(|bytes| vec![0; bytes]) {
                for &words in &scratches {
                    let scratch = any_scratch(&mut random, words);
                    seen.same(first, second, &report, &scratch);
                }
            }
        }
    }
    // One scratch fits and two reports, which are one empty and one bad; three pairs have damage. The scratch of the next k is tried too.
    seen.all_at_least(&[1], 10_000);
    assert_eq!((seen.results[&2], seen.results[&12]), (6 * 2 * 3, 6 + 5));
}

/// Every length of the scratch up to a word for each granule of three cards, and every length of an image up to two cards'.
#[test]
fn scratches_and_images_of_every_length() {
    let mut random = Random::new(307);
    let mut seen = Seen::default();
    for k in 1..=2 {
        let image = fresh_image(k);
        for words in 0..=3 * CARD_GRANULES {
            let scratch = any_scratch(&mut random, words);
            let result = seen.same(&image, &image, &[], &scratch);
            assert_eq!(result, u16::from(words != scratch_words(k)));
        }
    }
    for words in (0..2_000).filter(|&words| reference::cards_of_length(words).is_none()) {
        for k in 0..=2 {
            let scratch = any_scratch(&mut random, scratch_words(k));
            assert_eq!(seen.same(&vec![0; words], &vec![0; words], &[], &scratch), 1);
        }
    }
}

/// "A scratch of G words is a misfit from then on", and so is half of it and double the right one, with damage and without; the right one is
/// none.
#[test]
fn a_scratch_of_g_words() {
    let mut random = Random::new(312);
    let mut seen = Seen::default();
    for k in [1, 2, 3, 7, 8, 9, 64, 65, 511, 512] {
        let image = any_image(&mut random, k);
        let mut damaged = image.clone();
        damage(&mut random, &mut damaged);
        let (_, lost) = held_and_lost(&image);
        let report = report_bytes(&lost);
        let granules = CARD_GRANULES * k;
        for words in [granules, granules / 2, granules / 4] {
            let scratch = any_scratch(&mut random, words);
            for second in [&image, &damaged] {
                assert_eq!(seen.same(&image, second, &report, &scratch), 1, "{words} words, {k} cards");
            }
        }
        let scratch = any_scratch(&mut random, granules / 8);
        assert_eq!(seen.same(&image, &image, &report, &scratch), 0, "{k} cards");
        assert_eq!(seen.same(&image, &damaged, &report, &scratch), 2, "{k} cards");
    }
}

/// Damage of the first image, of the second and of both, whatever the report says.
#[test]
fn damaged_images() {
    let mut random = Random::new(308);
    let mut seen = Seen::default();
    for round in 0..2_500 {
        let k = 1 + round % 4;
        let images = [any_image(&mut random, k), any_image(&mut random, k)];
        let damaged = [0, 1].map(|n: usize| {
            let mut damaged = images[n].clone();
            damage(&mut random, &mut damaged);
            damaged
        });
        let start = Image::of(&images[1]).unwrap().starts().next().unwrap_or(1);
        let report = Stretch::new(start, random.below(5)).to_bytes();
        let scratch = any_scratch(&mut random, scratch_words(k));
        for report in [&[][..], &report] {
            let pairs = [(&damaged[0], &images[1]), (&images[0], &damaged[1]), (&damaged[0], &damaged[1])];
            for (first, second) in pairs {
                assert_eq!(seen.same(first, second, report, &scratch), 2);
            }
            seen.same(&images[0], &images[1], report, &scratch);
        }
    }
    seen.all_at_least(&[0, 2, 12, 14], 100);
}

/// A begin and a finish alone, and nothing between them but what a list must have: the image that the begin got and the one that the finish got
/// differ only in the cycle.
#[test]
fn a_begin_and_a_finish_alone() {
    let mut random = Random::new(309);
    let mut seen = Seen::default();
    let steps = [BEGIN, FINISH].map(|kind| Record::new(kind, 0, 0, 0, 0).to_bytes()).concat();
    for round in 0..300 {
        let image = far(&mut random, 1 + round % 8);
        let cycle = cycles(&image, &steps, library::batch).pop().expect("a cycle");
        let reached = within_reach(Image::of(&image).unwrap());
        let lost = Image::of(&image).unwrap().starts().filter(|&g| !reached[g]).count();
        assert_eq!(cycle.freed().len(), lost, "all that is out of reach is freed");
        judge_cycle(&mut random, &cycle, &mut seen, &mut Seen::default());
    }
    seen.all_at_least(&[0], 900);
}

/// Request (viii)'s, and request (vi)'s with G/8 words and as they stand.
#[test]
fn outside_reports() {
    let [with_an_eighth, as_they_stand] =
        parse_older_reports(include_str!("../../vectors/document_02/06-vi.txt")).unwrap();
    let newer = parse_reports(include_str!("../../vectors/document_02/08-viii.txt")).unwrap();
    let results = [newer, with_an_eighth, as_they_stand].map(|cases| {
        let mut seen = Seen::default();
        for case in &cases {
            let mut scratch = case.scratch.clone();
            let result = library::judge_report(&case.first, &case.second, &case.report, &mut scratch);
            assert_eq!(result, case.result, "case {}", case.name);
            assert!(scratch == case.after, "scratch of case {}", case.name);
            seen.same_case(case);
        }
        seen.results
    });
    assert_eq!(results[0], [(0, 16), (1, 9), (2, 11), (12, 21), (13, 11), (14, 2)].into());
    assert_eq!(results[1], [(0, 26), (1, 12), (2, 8), (12, 14), (13, 7), (14, 3)].into());
    assert_eq!(results[2], [(1, 70)].into());
}
