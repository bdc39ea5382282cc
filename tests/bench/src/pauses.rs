//! What a finish takes at three moments of the marking, and the pause ratio: how much shorter the halt is for the marking that was
//! done before it.

use crate::calls::Batch;
use crate::shows::{full_tree, show, Free, Sizes};
use crate::stepping::alone;
use crate::timing::{pass_time, Goals};
use crate::work::{self, BEGIN, FINISH};

pub fn pauses(goals: &mut Goals) {
    println!(
        "finish alone, library ns                              after begin  half marked   all marked  pause ratio"
    );
    for k in [64, 512] {
        for (size, sizes) in SIZES {
            for (share, free) in [("nothing", Free::Nothing), ("half", Free::Half), ("all", Free::All)] {
                let image = show(k, sizes, free);
                let row = print_row(&format!("k = {k:3}, objects of {size}, {share} freed"), &image);
                if k == 512 && matches!((sizes, free), (Sizes::One | Sizes::OneToEight | Sizes::Sixteen, Free::Nothing))
                {
                    goals.at_most("a finish that keeps all, in plain passes", row.all_marked / pass_time(&image), 1.0);
                }
            }
        }
        let row = print_row(&format!("k = {k:3}, {} objects of two links", 64 * k - 1), &full_tree(k));
        let limit = if k == 64 { 3.4 } else { 5.0 };
        goals.at_least(&format!("pause ratio of objects with two links at k = {k}"), row.ratio, limit);
    }
}

/// The last are objects of one granule with a run of one behind each: as many old runs as a store can have.
const SIZES: [(&str, Sizes); 4] = [
    ("1 granule", Sizes::One),
    ("1 to 8", Sizes::OneToEight),
    ("16", Sizes::Sixteen),
    ("1, runs between", Sizes::OneBetweenRuns),
];

struct Row {
    all_marked: f64,
    ratio: f64,
}

/// The finish right after a begin, after half the tracers' steps, and after all of them.
fn print_row(what: &str, image: &[u16]) -> Row {
    let begun = work::after(image, &BEGIN);
    let marking = work::marking(&begun);
    let half = marking.len() / 16 * 8;
    let moments = [0, half, marking.len()].map(|done| work::after(&begun, &marking[..done]));
    let [first, middle, last] = alone(12, &FINISH, [0, 1, 2].map(|n| (library::batch as Batch, &moments[n][..])));
    let ratio = first / last;
    println!("  {what:52} {first:11.0} {middle:12.0} {last:12.0} {ratio:12.1}");
    Row { all_marked: last, ratio }
}
