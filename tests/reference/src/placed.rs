//! What the news of a list show of where they go.

use crate::image::Store;
use crate::record::{records, NEW};
use crate::steps::{step, Placing};

/// News by number, and of the accepted ones those that used a run up, that left another of the same length above, that left a longer one
/// below, and that did all three.
#[derive(Debug, Default)]
pub struct Placed {
    pub numbers: [usize; 12],
    pub used_up: usize,
    pub equal_above: usize,
    pub longer_below: usize,
    pub all_three: usize,
}

impl Placed {
    pub fn count(&mut self, image: &[u16], steps: &[u8]) {
        let mut image = image.to_vec();
        let mut store = Store::of(&mut image).expect("a fitting length");
        for record in records(steps) {
            let runs: Vec<(usize, usize)> = store.image().runs().collect();
            let (number, _) = step(&mut store, record);
            if record.kind != NEW {
                continue;
            }
            self.numbers[usize::from(number)] += 1;
            if number == 0 {
                self.count_place(&runs, record.b());
            }
        }
    }

    fn count_place(&mut self, runs: &[(usize, usize)], size: usize) {
        let (g, length) = Placing::Tightest.run(runs.iter().copied(), size).expect("there is room");
        let used_up = length == size;
        let equal_above = runs.iter().any(|&(run, other)| run > g && other == length);
        let longer_below = runs.iter().any(|&(run, other)| run < g && other > length);
        self.used_up += usize::from(used_up);
        self.equal_above += usize::from(equal_above);
        self.longer_below += usize::from(longer_below);
        self.all_three += usize::from(used_up && equal_above && longer_below);
    }

    /// Each is seen so often, and every refusal that a new can get is.
    pub fn all_at_least(&self, least: usize) -> bool {
        let seen = [self.used_up, self.equal_above, self.longer_below, self.all_three];
        seen.iter().all(|&seen| seen >= least) && [4, 5, 8, 9].iter().all(|&number| self.numbers[number] > 0)
    }
}
