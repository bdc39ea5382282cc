//! Timings of new on a store with many runs: how far along the chain it looks for the tightest one.

use reference::record::{Record, NEW};

use crate::calls::Batch;
use crate::dues::RUNS;
use crate::shows::{in_turn, with_runs};
use crate::stepping::alone;
use crate::timing::{Goals, NOT_SLOWER};

/// News in a batch that walk along the whole chain, enough to show beside the judging of the image, and that take the first run.
const WALKS: usize = 70;
const FIRSTS: usize = 2_000;

pub fn placing(goals: &mut Goals) {
    println!("new, k = 512, {RUNS} runs     library ns  second ns  library/second  runs seen  (a step)");
    let mut just_as_long_first = in_turn(RUNS);
    just_as_long_first[..FIRSTS].fill(3);
    let mut only_the_last = in_turn(RUNS);
    only_the_last[RUNS - 1] = 9 * WALKS;
    let rows = [
        ("just as long, the first", just_as_long_first, 3, FIRSTS, 1),
        ("none just as long", in_turn(RUNS), 3, WALKS, RUNS),
        ("only the last is enough", only_the_last, 9, WALKS, RUNS),
    ];
    let last = rows.map(|(what, lengths, size, news, seen)| {
        let image = with_runs(512, &lengths);
        let record = Record::new(NEW, 0, 1, size, 0).to_bytes();
        let timed = |batch: Batch, news| alone(4, &record.repeat(news), [(batch, &image)])[0] / news as f64;
        let (ours, theirs) = (timed(library::batch, news), timed(reference::batch, WALKS));
        println!("  {what:24} {ours:12.1} {theirs:10.0} {:14.2} {seen:10}", ours / theirs);
        goals.at_most("new against the second implementation", ours / theirs, NOT_SLOWER);
        ours
    })[2];
    println!("  {:.2} ns a run", last / RUNS as f64);
}
