//! Timing, and the goals that timings are held to.

use std::hint::black_box;
use std::time::{Duration, Instant};

pub fn timed(work: impl FnOnce()) -> Duration {
    let began = Instant::now();
    work();
    began.elapsed()
}

/// A work to be timed: it gives the time of the part that counts.
pub type Work<'a> = &'a mut dyn FnMut() -> Duration;

/// The shortest timing of each work, in nanoseconds: what it takes when nothing else runs. The works run in turn, eight times
/// each, so that a slow moment of the machine falls on all of them.
pub fn in_turn<const N: usize>(rounds: usize, works: [Work; N]) -> [f64; N] {
    in_turn_by(rounds, 8, works)
}

/// The same with so many timings in a row, for works that take long.
pub fn in_turn_by<const N: usize>(rounds: usize, times: usize, mut works: [Work; N]) -> [f64; N] {
    let mut least = [f64::MAX; N];
    for _ in 0..rounds {
        for (work, least) in works.iter_mut().zip(&mut least) {
            for _ in 0..times {
                *least = least.min(work().as_nanos() as f64);
            }
        }
    }
    least
}

/// One plain pass that adds up the words.
pub fn pass<W: Copy + Into<u64>>(image: &[W]) {
    black_box(black_box(image).iter().map(|&word| word.into()).sum::<u64>());
}

/// What a plain pass over an image takes, in nanoseconds: it tells how fast the machine is.
pub fn pass_time(image: &[u16]) -> f64 {
    let [five] = in_turn(8, [&mut || timed(|| (0..5).for_each(|_| pass(image)))]);
    five / 5.0
}

/// Never slower than the second implementation, within the error of measuring.
pub const NOT_SLOWER: f64 = 1.05;

/// How far a goal may be missed in a check: other work on the machine makes timings longer, and not always all of them alike.
const SLACK: f64 = 2.0;

/// The goals that a part of the benchmark asks for, in the same order each time that it runs, and the places and words of those that it misses.
pub struct Goals {
    check: bool,
    count: usize,
    missed: Vec<(usize, String)>,
}

impl Goals {
    pub fn new(check: bool) -> Goals {
        Goals { check, count: 0, missed: Vec::new() }
    }

    pub fn at_most(&mut self, what: &str, ratio: f64, limit: f64) {
        let limit = if self.check { SLACK * limit } else { limit };
        self.note(ratio <= limit, || format!("{what}: {ratio:.2}, at most {limit}"));
    }

    pub fn at_least(&mut self, what: &str, ratio: f64, limit: f64) {
        let limit = if self.check { limit / SLACK } else { limit };
        self.note(ratio >= limit, || format!("{what}: {ratio:.2}, at least {limit}"));
    }

    fn note(&mut self, reached: bool, words: impl FnOnce() -> String) {
        if !reached {
            let words = words();
            println!("  NOT REACHED: {words}");
            self.missed.push((self.count, words));
        }
        self.count += 1;
    }

    /// Whether every goal is reached, or this is no check.
    pub fn hold(&self) -> bool {
        !self.check || self.missed.is_empty()
    }

    /// Only the goals stay missed that a later run of the same part misses too.
    pub fn run_again(&mut self, later: &Goals) {
        assert_eq!(self.count, later.count, "the goals of a part that is run again");
        self.missed.retain(|(goal, _)| later.missed.iter().any(|(missed, _)| missed == goal));
    }

    pub fn missed(&self) -> impl Iterator<Item = &str> {
        self.missed.iter().map(|(_, words)| words.as_str())
    }
}
