//! Timings of judge_report, and of what it takes beyond judging its two images.

use std::cell::RefCell;
use std::hint::black_box;
use std::time::Duration;

use reference::image::Image;
use reference::layout::LARGEST_OBJECT;
use reference::made::linked;
use reference::overflow::{list, relay, tree, wide, Order};
use reference::random::Random;
use reference::report::{freed, joined, report_bytes, scratch_words, within_reach, Stretch};
use reference::vectors::UNTOUCHED;

use crate::calls::{assert_undamaged, judge_all};
use crate::shows::{show, Free, Sizes};
use crate::timing::{in_turn, pass, timed, Goals, NOT_SLOWER};
use crate::work;

/// An acceptable report, so that none of the questions is left out.
struct Report {
    images: [Vec<u16>; 2],
    bytes: Vec<u8>,
}

impl Report {
    fn new(first: Vec<u16>, second: Vec<u16>, stretches: &[Stretch]) -> Report {
        let report = Report { images: [first, second], bytes: report_bytes(stretches) };
        report.images.iter().for_each(|image| assert_undamaged(image));
        report.time(reference::judge_report, &RefCell::new(vec![0; report.scratch_words()]));
        report
    }

    /// Of one image at the begin and before the finish, with all that is out of reach in stretches of one object, or neighbours in one.
    fn of_all_lost(image: Vec<u16>, joins: bool) -> Report {
        let shown = Image::of(&image).expect("a fitting length");
        let reached = within_reach(shown);
        let lost = shown.objects().filter(|object| !reached[object.start]);
        let lost: Vec<Stretch> = lost.map(|object| Stretch::new(object.start, object.size)).collect();
        let stretches = joined(&lost, || joins);
        Report::new(image.clone(), image, &stretches)
    }

    /// Of a begin and a finish of ours, with nothing between.
    fn of_our_own(image: Vec<u16>) -> Report {
        let begun = work::after(&image, &work::BEGIN);
        let left = work::after(&begun, &work::FINISH);
        let shown = [&begun, &left].map(|words| Image::of(words).expect("a fitting length"));
        let stretches = freed(shown[0], shown[1]);
        Report::new(image, begun, &stretches)
    }

    fn scratch_words(&self) -> usize {
        scratch_words(reference::cards_of_length(self.images[0].len()).expect("a fitting length"))
    }

    /// The time of one call, which must find the report acceptable and leave the scratch zero.
    fn time(&self, judge_report: JudgeReport, scratch: &RefCell<Vec<u16>>) -> Duration {
        let mut scratch = scratch.borrow_mut();
        let scratch = &mut scratch[..self.scratch_words()];
        scratch.fill(UNTOUCHED);
        let [first, second] = &self.images;
        let mut result = 1;
        let took = timed(|| {
            result = judge_report(black_box(first), black_box(second), black_box(&self.bytes), black_box(&mut *scratch))
        });
        assert_eq!(result, 0, "the verdict on a report");
        assert!(scratch.iter().all(|&word| word == 0), "the scratch afterwards");
        took
    }

    fn judging(&self) -> Duration {
        judge_all(library::judge, &self.images)
    }
}

type JudgeReport = fn(&[u16], &[u16], &[u8], &mut [u16]) -> u16;

/// Objects of one granule and two links, the first of them held.
fn graph(k: usize, target: impl FnMut(usize, usize) -> usize) -> Vec<u16> {
    linked(k, 1, 2, Some(0), target)
}

/// One link of each object goes to the next in a random order, which begins with the first.
fn in_random_order(k: usize, seed: u64) -> Vec<u16> {
    let mut order: Vec<usize> = (1..64 * k - 1).collect();
    Random::new(seed).shuffle(&mut order);
    order.insert(0, 0);
    let mut next = vec![NONE; order.len()];
    order.windows(2).for_each(|pair| next[pair[0]] = pair[1]);
    graph(k, |n, i| if i == 0 { next[n] } else { NONE })
}

/// The number of no object.
const NONE: usize = usize::MAX;

/// Images and a report, by what they are, and the passes beyond judging that request (vi) took on them at k = 512, with its scratch of G words.
type Kind = (&'static str, f64, Report);

fn kinds(k: usize, seed: u64) -> [Kind; 15] {
    let mut random = Random::new(seed);
    let objects = 64 * k - 1;
    let largest = objects.div_ceil(LARGEST_OBJECT);
    let unheld = || linked(k, 1, 2, None, |n, i| n + i + 1);
    let alone = |image| Report::of_all_lost(image, false);
    let ascending = graph(k, |n, i| if i == 0 { n + 1 } else { NONE });
    let descending = linked(k, 1, 2, Some(objects - 1), |n, i| if i == 0 { n.wrapping_sub(1) } else { NONE });
    [
        ("random graph", 32.5, alone(graph(k, |_, _| random.below(objects)))),
        ("list, ascending", 15.4, alone(ascending)),
        ("list, descending", 15.4, alone(descending)),
        ("list, low and high", 14.2, alone(list(k, Order::Alternating))),
        ("list, random order", 21.1, alone(in_random_order(k, seed))),
        ("tree", 13.7, alone(graph(k, |n, i| 2 * n + 1 + i))),
        ("4,094 links each", 9.0, alone(linked(k, LARGEST_OBJECT, 4_094, Some(0), |n, i| (n + i) % largest))),
        ("one wide object", 6.3, alone(wide(k, Order::Rising))),
        ("tree of wide objects", 9.2, alone(tree(k))),
        ("wide objects in a row", 10.8, alone(relay(k, Order::Rising))),
        ("own, 1 granule", 10.7, Report::of_our_own(show(k, Sizes::One, Free::Half))),
        ("own, 1 to 8", 4.3, Report::of_our_own(show(k, Sizes::OneToEight, Free::Half))),
        ("own, runs between", 5.5, Report::of_our_own(show(k, Sizes::OneBetweenRuns, Free::Half))),
        ("all freed, each apart", 5.6, alone(unheld())),
        ("all freed, one stretch", 5.3, Report::of_all_lost(unheld(), true)),
    ]
}

pub fn reporting(goals: &mut Goals) {
    println!(
        "report                         library ns  judging ns  second ns  library/second  passes beyond  against (vi)"
    );
    for k in [64, 512] {
        let scratch = RefCell::new(vec![0; scratch_words(k)]);
        for (what, before, report) in kinds(k, 1) {
            let mut ours = || report.time(library::judge_report, &scratch);
            let mut judging = || report.judging();
            let mut theirs = || report.time(reference::judge_report, &scratch);
            let mut passes = || timed(|| (0..5).for_each(|_| pass(&report.images[0])));
            let works: [&mut dyn FnMut() -> Duration; 4] = [&mut ours, &mut judging, &mut theirs, &mut passes];
            let [ours, judging, theirs, five_passes] = in_turn(4, works);
            let (ratio, passes) = (ours / theirs, (ours - judging) / (five_passes / 5.0));
            print!("  k = {k:3}, {what:22} {ours:11.0} {judging:11.0} {theirs:10.0} {ratio:15.2} {passes:14.1}");
            println!("{}", if k == 512 { format!(" {:13.2}", passes / before) } else { String::new() });
            goals.at_most("report against the second implementation", ratio, NOT_SLOWER);
            if k == 512 {
                goals.at_most(&format!("report at k = 512 beyond judging, {what}, in plain passes"), passes, 50.0);
                goals.at_most(&format!("passes of {what} against those of request (vi)"), passes / before, 1.5);
            }
        }
    }
    growing(goals);
}

/// As many cards are judged at each k, in turn, and no image twice in a row.
fn growing(goals: &mut Goals) {
    let scratch = RefCell::new(vec![0; scratch_words(512)]);
    let small: Vec<_> = (1..=8).map(|seed| kinds(64, seed)).collect();
    for (n, (what, _, large)) in kinds(512, 1).iter().enumerate() {
        let small: Vec<&Report> = small.iter().map(|kinds| &kinds[n].2).collect();
        let all = |work: &dyn Fn(&Report) -> Duration| small.iter().map(|report| work(report)).sum::<Duration>();
        let [ours, judging, small_ours, small_judging] = in_turn(
            4,
            [
                &mut || large.time(library::judge_report, &scratch),
                &mut || large.judging(),
                &mut || all(&|report| report.time(library::judge_report, &scratch)),
                &mut || all(&|report| report.judging()),
            ],
        );
        let growth = (ours - judging) / (small_ours - small_judging);
        println!("  cost of a card beyond judging, {what}, k = 512 against k = 64: {growth:.2}");
        goals.at_most("cost of a card beyond judging, k = 512 against k = 64", growth, 1.5);
    }
}
