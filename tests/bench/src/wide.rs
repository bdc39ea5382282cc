//! The wide store: against the narrow one on the same shows, against its own second implementation, and the largest store against one of 512 cards.

use std::time::Duration;

use library::Exported;
use reference::image::StoreOf;
use reference::made::{fresh_image, idle, running};
use reference::random::Random;
use reference::record::{records, RecordOf, BEGIN, FINISH};
use reference::wide::record::RECORD_BYTES;
use reference::wide::Store;
use reference::width::{Places, Width};

use crate::calls::{assert_undamaged, judge_all, Batch, Call};
use crate::stepping::alone;
use crate::timing::{in_turn, in_turn_by, pass, timed, Goals, NOT_SLOWER};
use crate::work;

const LARGEST: usize = 65_536;

/// At most so many plain passes over its own words, with no cycle.
const PASSES: f64 = 5.0;

pub fn wide(goals: &mut Goals) {
    judging(goals);
    stepping(goals);
    finishing(goals);
    judging_the_largest(goals);
    finishing_the_largest(goals);
}

/// So many random images of one kind; each seed gives both widths the same show.
fn drawn<W: Width>(make: fn(&mut Random, usize) -> Vec<W>, k: usize, count: u64) -> Vec<Vec<W>> {
    (1..=count).map(|seed| make(&mut Random::new(seed), k)).collect()
}

fn kinds<W: Width>(k: usize) -> [(&'static str, Vec<Vec<W>>); 5] {
    [
        ("fresh", vec![fresh_image(k)]),
        ("no cycle", vec![work::compact(k)]),
        ("no cycle, random", drawn(idle, k, 24)),
        ("in a cycle", vec![work::half_marked(k)]),
        ("in a cycle, random", drawn(running, k, 24)),
    ]
}

/// Each image judged by the wide library, by the narrow one and by the wide second implementation, and a plain pass over the wide words: the sums.
fn judged(narrow: &[Vec<u16>], wide: &[Vec<u32>]) -> [f64; 4] {
    let mut sums = [0.0; 4];
    for (narrow, wide) in narrow.chunks(1).zip(wide.chunks(1)) {
        let times = in_turn(
            8,
            [
                &mut || judge_all(library::wide::judge, wide),
                &mut || judge_all(library::judge, narrow),
                &mut || judge_all(reference::judge, wide),
                &mut || five_passes(&wide[0]),
            ],
        );
        sums.iter_mut().zip(times).for_each(|(sum, time)| *sum += time);
    }
    [sums[0], sums[1], sums[2], sums[3] / 5.0]
}

fn five_passes(image: &[u32]) -> Duration {
    timed(|| (0..5).for_each(|_| pass(image)))
}

fn judging(goals: &mut Goals) {
    println!("wide judge                       wide ns  narrow ns  wide/narrow  wide/second  passes");
    for k in [16, 512] {
        for ((what, narrow), (_, wide)) in kinds(k).into_iter().zip(kinds(k)) {
            let [ours, ours_narrow, theirs, one_pass] = judged(&narrow, &wide).map(|sum| sum / wide.len() as f64);
            let [to_narrow, to_second, passes] = [ours_narrow, theirs, one_pass].map(|other| ours / other);
            println!(
                "  k = {k:3}, {what:18} {ours:12.0} {ours_narrow:10.0} {to_narrow:12.2} {to_second:12.2} {passes:7.1}"
            );
            goals.at_most("wide judge against the second implementation", to_second, NOT_SLOWER);
            if k == 512 && !what.starts_with("in a cycle") {
                goals.at_most(&format!("wide judge at k = 512, {what}, in plain passes"), passes, PASSES);
            }
        }
    }
}

/// The same records with fields of 32 bits.
fn widened(steps: &[u8]) -> Vec<u8> {
    let wide = |record: RecordOf<u16>| {
        RecordOf::<u32>::of(record.kind, record.who(), record.a(), record.b(), record.c()).to_bytes()
    };
    records(steps).flat_map(wide).collect()
}

fn stepping(goals: &mut Goals) {
    println!("wide steps, a realistic mix      wide ns  narrow ns  wide/narrow  wide/second  (a step)");
    for k in [16, 512] {
        let (narrow, narrow_steps) = work::show(k, 2_000);
        let (image, steps) = (work::compact_show::<u32>(k), widened(&narrow_steps));
        for size in [1, 100, 1_000] {
            let count = if size == 1 { 100 } else { 2_000 };
            let call = Call::in_batches(&image, &steps[..RECORD_BYTES * count], size);
            let call_narrow = Call::in_batches(&narrow, &narrow_steps[..8 * count], size);
            let [ours, ours_narrow, theirs] = in_turn(
                2,
                [&mut || call.time(library::wide::batch), &mut || call_narrow.time(library::batch), &mut || {
                    call.time(reference::batch)
                }],
            )
            .map(|all| all / count as f64);
            print_row(&format!("k = {k:3}, batches of {size:5}"), [ours, ours_narrow, theirs]);
            goals.at_most("wide steps against the second implementation", ours / theirs, NOT_SLOWER);
        }
    }
}

fn print_row(what: &str, [ours, ours_narrow, theirs]: [f64; 3]) {
    let (to_narrow, to_second) = (ours / ours_narrow, ours / theirs);
    println!("  {what:27} {ours:12.0} {ours_narrow:10.0} {to_narrow:12.2} {to_second:12.2}");
}

fn bytes<W: Width>(kind: u8) -> Vec<u8> {
    RecordOf::<W>::of(kind, 0, 0, 0, 0).to_bytes()
}

/// A cycle that has just begun, and one whose marking is done.
fn moments<W: Width>(k: usize) -> [Vec<W>; 2] {
    let begun: Vec<W> = work::after(&work::compact_show(k), &bytes::<W>(BEGIN));
    let marked = work::after(&begun, &work::marking(&begun));
    [begun, marked]
}

fn finishing(goals: &mut Goals) {
    println!("wide finish                      wide ns  narrow ns  wide/narrow  wide/second");
    for k in [16, 512] {
        let whats = ["right after a begin", "after marking"];
        for (what, (narrow, wide)) in whats.into_iter().zip(moments(k).into_iter().zip(moments(k))) {
            let runs = [(library::wide::batch as Batch<u32>, &wide[..]), (reference::batch, &wide)];
            // A finish of a small store takes little beside the judging of its image.
            let rounds = if k < 100 { 48 } else { 6 };
            let [ours, theirs] = alone(rounds, &bytes::<u32>(FINISH), runs);
            let [ours_narrow] = alone(rounds, &bytes::<u16>(FINISH), [(library::batch as Batch, &narrow[..])]);
            print_row(&format!("k = {k:3}, {what}"), [ours, ours_narrow, theirs]);
            goals.at_most("wide finish against the second implementation", ours / theirs, NOT_SLOWER);
        }
    }
}

/// A store full of objects of four granules and two links, each linked to the next, in a cycle that has marked the first half: the last marked one is
/// entered. Laid directly, for the steps of so large a store take long.
fn half_marked<W: Exported>(k: usize) -> Vec<W> {
    let mut words = vec![W::default(); W::length(k)];
    let mut store = StoreOf::of(&mut words).expect("a fitting length");
    let objects: Vec<usize> = (1..store.layout.granules() - 4).step_by(4).collect();
    let end = objects.len() * 4 + 1;
    for (n, &g) in objects.iter().enumerate() {
        store.set_object(g, 4, 2);
        store.set_link(g, 0, objects.get(n + 1).copied().unwrap_or(0));
    }
    store.set_run(end, store.layout.granules() - end, 0);
    store.set_first_run(end);
    store.set_register(0, 0, 1);
    store.set_running(true);
    let marked = &objects[..objects.len() / 2];
    marked.iter().for_each(|&g| store.mark(g));
    store.append(0, marked[marked.len() - 1]);
    assert_undamaged(&words);
    words
}

fn judging_the_largest(goals: &mut Goals) {
    println!("wide judge, k = {LARGEST}           wide ns  passes");
    type Make = fn() -> Vec<u32>;
    let kinds: [(&str, Make); 4] = [
        ("fresh", || fresh_image(LARGEST)),
        ("no cycle", || work::compact(LARGEST)),
        ("no cycle, random", || idle(&mut Random::new(1), LARGEST)),
        ("in a cycle", || half_marked(LARGEST)),
    ];
    for (what, make) in kinds {
        let image = [make()];
        assert_undamaged(&image[0]);
        let [ours, five] =
            in_turn_by(2, 2, [&mut || judge_all(library::wide::judge, &image), &mut || five_passes(&image[0])]);
        let passes = ours / (five / 5.0);
        println!("  {what:27} {ours:12.0} {passes:7.1}");
        if !what.starts_with("in a cycle") {
            goals.at_most(&format!("wide judge at k = {LARGEST}, {what}, in plain passes"), passes, PASSES);
        }
    }
}

/// The show of `half_marked` with no cycle, begun: the finish finds every object.
fn begun(k: usize) -> Vec<u32> {
    let mut words = half_marked::<u32>(k);
    let mut store = Store::of(&mut words).expect("a fitting length");
    let layout = store.layout;
    store.zero(layout.mark_bits(), layout.register(0, 0));
    store.zero(layout.packet(0), layout.player(0));
    assert_undamaged(&words);
    words
}

/// A finish less what judging its image takes, timed as often whatever the size: the shortest of few timings is longer than that of many.
fn finish_alone(image: &[u32]) -> f64 {
    let finish = bytes::<u32>(FINISH);
    let (whole, empty) = (Call::new(image, &finish), Call::new(image, &[]));
    let [whole, judging] =
        in_turn(5, [&mut || whole.time(library::wide::batch), &mut || empty.time(library::wide::batch)]);
    whole - judging
}

fn finishing_the_largest(goals: &mut Goals) {
    println!("wide finish, a card              k = 512  k = {LARGEST}        ratio");
    type Make = fn(usize) -> Vec<u32>;
    for (what, make) in [("right after a begin", begun as Make), ("half marked", half_marked)] {
        let small = finish_alone(&make(512)) / 512.0;
        let large = finish_alone(&make(LARGEST)) / LARGEST as f64;
        println!("  {what:27} {small:12.1} {large:12.1} {:12.2}", large / small);
        goals.at_most(&format!("finish of a card at k = {LARGEST} against k = 512, {what}"), large / small, 2.0);
    }
}
