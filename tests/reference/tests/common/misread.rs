//! Wide stores that misread records of one kind: they do what the right one does on records in which some bytes are 0.

use std::ops::Range;

use reference::batch;
use reference::vectors::{untouched, BatchCase};
use reference::wide::record::RECORD_BYTES;

#[derive(Debug)]
pub struct Misread {
    pub what: &'static str,
    pub kind: u8,
    unseen: Range<usize>,
}

/// A zero byte that is let through, and a field that is cut to its low 16 bits.
const UNSEEN: [(&str, Range<usize>); 5] =
    [("third byte", 2..3), ("fourth byte", 3..4), ("a cut", 6..8), ("b cut", 10..12), ("c cut", 14..16)];

impl Misread {
    pub fn all() -> impl Iterator<Item = Misread> {
        (1..=15).flat_map(|kind| UNSEEN.map(|(what, unseen)| Misread { what, kind, unseen }))
    }

    pub fn batch(&self, image: &mut [u32], steps: &[u8], answers: &mut [u32]) -> u16 {
        let mut steps = steps.to_vec();
        for record in steps.chunks_exact_mut(RECORD_BYTES).filter(|record| record[0] == self.kind) {
            record[self.unseen.clone()].fill(0);
        }
        batch(image, &steps, answers)
    }

    /// Whether the case goes otherwise by it.
    pub fn is_told_by(&self, case: &BatchCase<u32>) -> bool {
        let (mut image, mut answers) = (case.image.clone(), vec![untouched(); case.answers]);
        let result = self.batch(&mut image, &case.steps, &mut answers);
        (result, image, answers) != (case.result, case.left.clone(), case.given.clone())
    }
}
