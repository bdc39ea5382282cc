//! A call by the proved library and by the second implementation, and what such calls have shown.

use reference::demand::{found_no_packet, Wiped};
use reference::image::ImageOf;
use reference::record::{records_of, DUE, UNDIRTY};
use reference::vectors::untouched;
use reference::width::Width;

use crate::guarded::Guarded;
use crate::Exported;

const GUARD: usize = 0xa55a;
const BYTE_GUARD: u8 = 0x77;

/// What a run has shown: steps, accepted ones by kind, dues that said 1, steps of no kind, numbers, those of undirty steps, refused
/// batches, and in batches of one step those that found no packet for an object, and the cards that were wiped.
#[derive(Debug, Default)]
pub struct Seen {
    pub steps: usize,
    pub accepted: [usize; 16],
    pub due: usize,
    pub unknown_kinds: usize,
    pub numbers: [usize; 12],
    pub undirty_numbers: [usize; 12],
    pub refused: usize,
    pub without_packet: usize,
    pub wiped: Wiped,
}

impl Seen {
    fn count<W: Width>(&mut self, steps: &[u8], answers: &[W]) {
        for (record, answer) in records_of::<W>(steps).zip(answers.chunks(2)) {
            let (number, value) = (answer[0].number(), answer[1].number());
            self.steps += 1;
            self.unknown_kinds += usize::from(!(1..=15).contains(&record.kind));
            self.numbers[number] += 1;
            self.undirty_numbers[number] += usize::from(record.kind == UNDIRTY);
            if number == 0 {
                self.accepted[usize::from(record.kind)] += 1;
                self.due += usize::from(record.kind == DUE && value == 1);
            }
        }
    }

    pub fn every_kind(&self) -> bool {
        (1..=15).all(|kind| self.accepted[kind] > 0)
    }

    pub fn every_refusal(&self) -> bool {
        (3..=11).all(|number| self.numbers[number] > 0)
    }

    pub fn every_refusal_of_undirty(&self) -> bool {
        [3, 4, 10, 11].iter().all(|&number| self.undirty_numbers[number] > 0)
    }
}

/// One call of both of the narrow store.
pub fn same(image: &mut [u16], steps: &[u8], answer_words: usize, seen: &mut Seen) -> Vec<u16> {
    same_of(image, steps, answer_words, seen)
}

/// One call of both: same result, image and answers, and nothing else touched. Gives the answers, none if the batch was refused.
pub fn same_of<W: Exported>(image: &mut [W], steps: &[u8], answer_words: usize, seen: &mut Seen) -> Vec<W> {
    let answers = vec![untouched(); answer_words];
    let mut lent = Guarded::new(image, W::of(GUARD));
    let lent_steps = Guarded::new(steps, BYTE_GUARD);
    let mut lent_answers = Guarded::new(&answers, W::of(GUARD));
    let result = W::batch(lent.items_mut(), lent_steps.items(), lent_answers.items_mut());

    // Looked at only behind a batch of one step.
    let got = if steps.len() == W::RECORD_BYTES { image.to_vec() } else { Vec::new() };
    let mut others = answers;
    let wanted = reference::batch(image, steps, &mut others);
    assert_eq!(result, wanted, "result of a batch of {} bytes on {} words", steps.len(), image.len());
    assert!(lent.items() == image, "image after {steps:02x?}");
    assert_eq!(lent_answers.items(), others, "answers of {steps:02x?}");
    assert!(lent.guards_stand() && lent_answers.guards_stand(), "memory outside the slices");
    assert!(lent_steps.guards_stand() && lent_steps.items() == steps, "step bytes written");

    if result != 0 {
        seen.refused += 1;
        return Vec::new();
    }
    seen.count(steps, &others);
    if steps.len() == W::RECORD_BYTES && others[0] == W::default() {
        let (got, left) = (ImageOf::of(&got).unwrap(), ImageOf::of(image).unwrap());
        seen.without_packet += usize::from(found_no_packet(steps, got, left));
        seen.wiped.count(steps, got);
    }
    others
}

/// How often each verdict was given.
#[derive(Debug, Default)]
pub struct Verdicts {
    pub of: [usize; 3],
}

impl Verdicts {
    /// Both implementations say the same, and nothing is written. Gives what they say.
    pub fn same<W: Exported>(&mut self, image: &[W]) -> u16 {
        let lent = Guarded::new(image, W::of(GUARD));
        let said = W::judge(lent.items());
        assert_eq!(said, reference::judge(image), "{} words", image.len());
        assert!(lent.guards_stand() && lent.items() == image, "judge wrote into {} words", image.len());
        self.of[usize::from(said)] += 1;
        said
    }

    pub fn sum(&self) -> usize {
        self.of.iter().sum()
    }
}

/// Both make the same store of these words, or leave them alone. Gives the result.
pub fn same_fresh<W: Exported>(words: &[W]) -> u16 {
    let mut lent = Guarded::new(words, W::of(GUARD));
    let mut other = words.to_vec();
    let result = W::fresh(lent.items_mut());
    assert_eq!(result, reference::fresh(&mut other), "{} words", words.len());
    assert!(lent.guards_stand() && lent.items() == other, "{} words", words.len());
    result
}
