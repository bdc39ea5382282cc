//! Timings of batches: the steps of a show, a finish, and undirty.

use library::Exported;

use crate::calls::{Batch, Call};
use crate::timing::{in_turn, Goals, NOT_SLOWER};
use crate::work::{self, BEGIN, FINISH};

/// Stores in a batch: enough to show beside the judging of the image.
const STORES: usize = 2_000;

pub fn stepping(goals: &mut Goals) {
    println!("steps, a realistic mix      library ns  second ns  library/second  (a step)");
    for k in [16, 512] {
        let (image, steps) = work::show(k, 2_000);
        for size in [1, 100, 1_000] {
            let count = if size == 1 { 100 } else { 2_000 };
            let call = Call::in_batches(&image, &steps[..8 * count], size);
            let [ours, theirs] = in_turn(1, [&mut || call.time(library::batch), &mut || call.time(reference::batch)])
                .map(|all| all / count as f64);
            println!("  k = {k:3}, batches of {size:5} {ours:11.0} {theirs:10.0} {:14.2}", ours / theirs);
            goals.at_most("steps against the second implementation", ours / theirs, NOT_SLOWER);
        }
    }
}

/// Some steps alone, by each and on each image: the time of a batch of them less that of an empty batch, which judges the image too.
/// All run in turn.
pub fn alone<W: Exported, const N: usize>(rounds: usize, steps: &[u8], runs: [(Batch<W>, &[W]); N]) -> [f64; N] {
    let calls = runs.map(|(batch, image)| (batch, Call::new(image, steps), Call::new(image, &[])));
    let mut least = [[f64::MAX; 2]; N];
    for _ in 0..rounds {
        for ((batch, whole, empty), least) in calls.iter().zip(&mut least) {
            let [whole, judging] = in_turn(1, [&mut || whole.time(*batch), &mut || empty.time(*batch)]);
            *least = [least[0].min(whole), least[1].min(judging)];
        }
    }
    least.map(|[whole, judging]| whole - judging)
}

/// A player fills cues in a cycle: each store with its barrier, and then with an undirty of the card too.
pub fn wiping(goals: &mut Goals) {
    println!("undirty                     library ns  second ns  library/second  (a store)");
    let constant = [64, 512].map(|k| {
        let image = work::open_cues(k);
        let timed = |what: &str, is_wiped| {
            let steps = work::filling(&image, STORES, is_wiped);
            let runs = [(library::batch as Batch, &image[..]), (reference::batch, &image)];
            let [ours, theirs] = alone(4, &steps, runs).map(|all| all / STORES as f64);
            println!("  k = {k:3}, {what:18} {ours:10.0} {theirs:10.0} {:14.2}", ours / theirs);
            (ours, ours / theirs)
        };
        timed("store and barrier", false);
        let (ours, ratio) = timed("and undirty", true);
        goals.at_most("undirty against the second implementation", ratio, NOT_SLOWER);
        ours
    });
    println!("  a store with its undirty at k = 512 against k = 64: {:.1}", constant[1] / constant[0]);
    goals.at_most("a store with its undirty at k = 512 against k = 64", constant[1] / constant[0], 2.0);
}

pub fn finishing(goals: &mut Goals) {
    println!("finish                      library ns  second ns  library/second");
    let mut linear = Vec::new();
    for k in [64, 512] {
        let begun = work::after(&work::compact_show(k), &BEGIN);
        let marked = work::after(&begun, &work::marking(&begun));
        let mut pauses = Vec::new();
        for (what, image) in [("right after a begin", &begun), ("after marking", &marked)] {
            let [ours, theirs] = alone(12, &FINISH, [(library::batch, image), (reference::batch, image)]);
            println!("  k = {k:3}, {what:19} {ours:9.0} {theirs:10.0} {:14.2}", ours / theirs);
            goals.at_most("finish against the second implementation", ours / theirs, NOT_SLOWER);
            pauses.push(ours);
        }
        println!(
            "  pause ratio, right after a begin against after marking: {:.1} (the paper, Table I: 3.4)",
            pauses[0] / pauses[1]
        );
        linear.push(pauses[0]);
    }
    println!("  a finish at k = 512 against k = 64: {:.1}", linear[1] / linear[0]);
    goals.at_most("a finish at k = 512 against k = 64", linear[1] / linear[0], 10.0);
}
