//! Timings of due: with every second step of a long batch, alone, and what the count takes where a batch begins.

use reference::record::{Record, DUE, READ};

use crate::calls::{judge_all, Call};
use crate::shows::{self, show, with_runs, Free, Sizes};
use crate::stepping::alone;
use crate::timing::{in_turn, Goals, NOT_SLOWER};
use crate::work;

pub const RUNS: usize = 8_000;

/// Steps of the playback loop in a batch, each with a due or a read behind it.
const STEPS: usize = 500;

/// Dues in a batch of the library, enough to show beside the judging of the image, and of the second implementation, which walks.
const DUES: usize = 10_000;
const WALKS: usize = 100;

pub fn dues(goals: &mut Goals) {
    in_long_batches(goals);
    let shows = [64, 512].map(|k| (k, show(k, Sizes::OneBetweenRuns, Free::Nothing)));
    one_alone(goals, &shows);
    where_a_batch_begins(&shows);
}

/// A playback loop that sends a due with every step, and the same with a read by another player in place of each due. The news use runs of 8
/// up; at the second the dues turn from 0 to 1.
fn in_long_batches(goals: &mut Goals) {
    println!("due in long batches         library ns  second ns  library/second  (a batch)");
    let image = with_runs(512, &shows::in_turn(RUNS));
    let wanted = 8 * (RUNS / 4 - 1);
    let behind = [Record::new(DUE, 0, wanted as u16, 0, 0), Record::new(READ, 1, 0, 0, 0)];
    let steps = behind.map(|record| work::playback(&image, STEPS, record));
    let dues: Vec<u16> = work::accepted_values(&image, &steps[0]).into_iter().skip(1).step_by(2).collect();
    assert!(dues.is_sorted() && dues.contains(&0) && dues.contains(&1), "dues that turn from 0 to 1 once");
    let [dues, reads] = [&steps[0], &steps[1]].map(|steps| Call::new(&image, steps));
    let timed = in_turn(
        4,
        [
            &mut || dues.time(library::batch),
            &mut || dues.time(reference::batch),
            &mut || reads.time(library::batch),
            &mut || reads.time(reference::batch),
        ],
    );
    for (what, times) in ["with dues", "with reads instead"].iter().zip(timed.chunks(2)) {
        let ratio = times[0] / times[1];
        println!("  {RUNS} runs, {what:18} {:8.0} {:10.0} {ratio:14.2}", times[0], times[1]);
        goals.at_most("a long batch against the second implementation", ratio, NOT_SLOWER);
    }
    println!("  a batch with dues against one without: {:.2}", timed[0] / timed[2]);
    goals.at_most("a batch with dues against one without", timed[0] / timed[2], 1.5);
}

/// A due alone, on stores with as many runs as there can be. None of them counts: dues of 0 and of 1 granule say 0 and 1.
fn one_alone(goals: &mut Goals, shows: &[(usize, Vec<u16>); 2]) {
    println!("due alone                   library ns  second ns  library/second  (a step)");
    let two = [0, 1].map(|wanted| Record::new(DUE, 0, wanted, 0, 0).to_bytes()).concat();
    let constant = [&shows[0], &shows[1]].map(|(k, image)| {
        let [ours] = alone(4, &two.repeat(DUES / 2), [(library::batch, image)]).map(|all| all / DUES as f64);
        let [theirs] = alone(4, &two.repeat(WALKS / 2), [(reference::batch, image)]).map(|all| all / WALKS as f64);
        println!("  k = {k:3}, {:5} runs {ours:18.1} {theirs:10.0} {:14.2}", 32 * k - 1, ours / theirs);
        goals.at_most("due against the second implementation", ours / theirs, NOT_SLOWER);
        ours
    });
    println!("  a due at k = 512 against k = 64: {:.1}", constant[1] / constant[0]);
    goals.at_most("a due at k = 512 against k = 64", constant[1] / constant[0], 2.0);
}

/// The runs are counted once where a batch begins: an empty batch does that and judges the image.
fn where_a_batch_begins(shows: &[(usize, Vec<u16>); 2]) {
    println!("an empty batch              library ns judging ns   batch/judging");
    for (k, image) in shows {
        let call = Call::new(image, &[]);
        let mut judging = || judge_all(library::judge, std::slice::from_ref(image));
        let [batch, judging] = in_turn(8, [&mut || call.time(library::batch), &mut judging]);
        println!("  k = {k:3}, {:5} runs {batch:18.0} {judging:10.0} {:14.2}", 32 * k - 1, batch / judging);
    }
}
