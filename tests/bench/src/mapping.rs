//! Timings of service_map, and of what it takes beyond judging its image.

use std::cell::RefCell;
use std::hint::black_box;
use std::time::Duration;

use reference::made::{fresh_image, idle, running};
use reference::map_bytes;

use crate::calls::judge_all;
use crate::judging::drawn;
use crate::shows::{show, Free, Sizes};
use crate::timing::{in_turn, pass, timed, Goals, NOT_SLOWER};
use crate::work;

type Map = fn(&[u16], &mut [u8]) -> u16;

/// The time of one map, which must come out as the second implementation draws it.
fn draw(service_map: Map, image: &[u16], output: &mut [u8], wanted: &[u8]) -> Duration {
    output.fill(0);
    let mut result = 1;
    let took = timed(|| result = service_map(black_box(image), black_box(&mut *output)));
    assert_eq!(result, 0, "the result of service_map");
    assert!(output == wanted, "a service map");
    took
}

/// What mapping an image of one kind takes, in nanoseconds, the judging of it in that, and in plain passes what there is beyond: the mean
/// over all, and the most of one.
#[derive(Default)]
struct Mapped {
    ours: f64,
    judging: f64,
    theirs: f64,
    passes: f64,
    most_passes: f64,
}

fn mapped(k: usize, images: &[Vec<u16>]) -> Mapped {
    let mut sum = Mapped::default();
    let share = 1.0 / images.len() as f64;
    let output = RefCell::new(vec![0; map_bytes(k)]);
    for image in images.chunks(1) {
        let mut wanted = vec![0; map_bytes(k)];
        assert_eq!(reference::service_map(&image[0], &mut wanted), 0);
        let mut ours = || draw(library::service_map, &image[0], &mut output.borrow_mut(), &wanted);
        let mut judging = || judge_all(library::judge, image);
        let mut theirs = || draw(reference::service_map, &image[0], &mut output.borrow_mut(), &wanted);
        let mut passes = || timed(|| (0..5).for_each(|_| pass(&image[0])));
        let [ours, judging, theirs, five_passes] = in_turn(8, [&mut ours, &mut judging, &mut theirs, &mut passes]);
        let passes = (ours - judging) / (five_passes / 5.0);
        sum.ours += share * ours;
        sum.judging += share * judging;
        sum.theirs += share * theirs;
        sum.passes += share * passes;
        sum.most_passes = sum.most_passes.max(passes);
    }
    sum
}

fn kinds(k: usize) -> [(&'static str, Vec<Vec<u16>>); 8] {
    [
        ("fresh", vec![fresh_image(k)]),
        ("objects of 1 granule", vec![show(k, Sizes::One, Free::Nothing)]),
        ("1, runs between", vec![show(k, Sizes::OneBetweenRuns, Free::Nothing)]),
        ("1 to 8", vec![show(k, Sizes::OneToEight, Free::Nothing)]),
        ("16", vec![show(k, Sizes::Sixteen, Free::Nothing)]),
        ("half marked", vec![work::half_marked(k)]),
        ("no cycle, random", drawn(idle, k, 12)),
        ("in a cycle, random", drawn(running, k, 12)),
    ]
}

pub fn mapping(goals: &mut Goals) {
    println!("map                             library ns  judging ns  second ns  library/second  passes beyond  most");
    for k in [64, 512] {
        for (what, images) in kinds(k) {
            let Mapped { ours, judging, theirs, passes, most_passes } = mapped(k, &images);
            let ratio = ours / theirs;
            println!(
                "  k = {k:3}, {what:20} {ours:11.0} {judging:11.0} {theirs:10.0} {ratio:15.2} {passes:14.1} {most_passes:5.1}"
            );
            goals.at_most("map against the second implementation", ratio, NOT_SLOWER);
            if k == 512 {
                goals.at_most(&format!("map at k = 512 beyond judging, {what}, in plain passes"), passes, 3.0);
            }
        }
    }
}
