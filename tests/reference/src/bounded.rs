//! What registers reach, searched with a stack of 1,024 entries: an object that finds it full is pending, and comes on it when it has run empty.
//! And searches that go wrong when that happens.

use std::ops::Range;

use crate::image::Image;

pub const STACK: usize = 1_024;

#[derive(Clone, Copy)]
pub struct Search {
    /// What becomes of an object that is newly seen when the stack is full.
    full: fn(&mut Work, usize),
    /// The objects that come on the stack when it has run empty, as far as there is room.
    next: fn(&mut Work) -> Vec<usize>,
}

/// By granule what is seen and what is pending, the stack, and how often a full stack was found and an empty one filled anew; the last time
/// with objects up to `filled_to`.
pub struct Work {
    pub seen: Vec<bool>,
    pending: Vec<bool>,
    stack: Vec<usize>,
    pub spilled: usize,
    pub refills: usize,
    filled_to: usize,
}

impl Work {
    fn granules(&self) -> usize {
        self.pending.len()
    }

    fn pending_in(&self, granules: Range<usize>) -> Vec<usize> {
        granules.filter(|&g| self.pending[g]).collect()
    }

    fn all_pending(&self) -> Vec<usize> {
        self.pending_in(0..self.granules())
    }
}

impl Search {
    pub fn run(self, image: Image) -> Work {
        let none = || vec![false; image.granules()];
        let mut work = Work { seen: none(), pending: none(), stack: Vec::new(), spilled: 0, refills: 0, filled_to: 0 };
        self.see(&mut work, image.registers());
        loop {
            while let Some(g) = work.stack.pop() {
                self.see(&mut work, image.object(g).links.iter().map(|&link| usize::from(link)));
            }
            let next = (self.next)(&mut work);
            if next.is_empty() {
                return work;
            }
            work.refills += 1;
            work.stack.extend(next.into_iter().take(STACK));
            work.stack.iter().for_each(|&g| work.pending[g] = false);
            work.filled_to = work.stack[work.stack.len() - 1];
        }
    }

    fn see(self, work: &mut Work, objects: impl Iterator<Item = usize>) {
        for g in objects.filter(|&g| g != 0) {
            if std::mem::replace(&mut work.seen[g], true) {
                continue;
            }
            if work.stack.len() < STACK {
                work.stack.push(g);
            } else {
                work.spilled += 1;
                (self.full)(work, g);
            }
        }
    }
}

pub const RIGHT: Search = Search { full: |work, g| work.pending[g] = true, next: |work| work.all_pending() };

/// Links are followed only of objects that found room.
pub const FORGETFUL: Search = Search { full: |_, _| {}, ..RIGHT };

pub const WRONG: [(&str, Search); 9] = [
    ("what finds the stack full is forgotten", FORGETFUL),
    ("what finds the stack full is not seen", Search { full: |work, g| work.seen[g] = false, ..RIGHT }),
    ("what finds the stack full takes the last place", Search { full: |work, g| work.stack[STACK - 1] = g, ..RIGHT }),
    ("one refill", refilled(|work| if work.refills == 0 { work.all_pending() } else { Vec::new() })),
    ("a refill that forgets what finds no room", refilled(taken_out)),
    ("a refill that never looks back", refilled(|work| work.pending_in(work.filled_to..work.granules()))),
    ("a refill of the lower half", refilled(|work| work.pending_in(0..work.granules() / 2))),
    ("a refill without the last word", refilled(|work| work.pending_in(0..work.granules() - 16))),
    ("a refill without the lowest of each word", refilled(|work| but_the_lowest(work))),
];

const fn refilled(next: fn(&mut Work) -> Vec<usize>) -> Search {
    Search { next, ..RIGHT }
}

fn taken_out(work: &mut Work) -> Vec<usize> {
    let all = work.all_pending();
    work.pending.fill(false);
    all
}

fn but_the_lowest(work: &Work) -> Vec<usize> {
    let words = work.all_pending();
    words.chunk_by(|a, b| a / 16 == b / 16).flat_map(|word| &word[1..]).copied().collect()
}
