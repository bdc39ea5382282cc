//! Wrong implementations: a right step, and what it has done altered afterwards.

use reference::image::{ImageOf, Store, StoreOf};
use reference::layout::Places;
use reference::record::*;
use reference::steps::step;
use reference::width::Width;
use reference::{batch, judge};

/// What a step got and has done; a wrong implementation changes image or answer.
pub struct Done<'a, W: Width = u16> {
    pub got: &'a [W],
    pub record: RecordOf<W>,
    pub image: &'a mut [W],
    pub answer: &'a mut [W],
}

impl<W: Width> Done<'_, W> {
    pub fn is_accepted(&self, kind: u8) -> bool {
        self.record.kind == kind && self.answer[0] == W::default()
    }

    pub fn store(&mut self) -> StoreOf<'_, W> {
        StoreOf::of(self.image).unwrap()
    }

    pub fn got(&self) -> ImageOf<'_, W> {
        ImageOf::of(self.got).unwrap()
    }

    /// Answers a number and leaves the image as it was.
    pub fn refuse(&mut self, number: W) {
        self.image.copy_from_slice(self.got);
        self.answer.copy_from_slice(&[number, W::default()]);
    }
}

/// A batch that runs one record after the other and lets `alter` change what each has done.
pub fn altered_batch<W: Width>(image: &mut [W], steps: &[u8], answers: &mut [W], alter: &dyn Fn(&mut Done<W>)) -> u16 {
    let fits = steps.len().is_multiple_of(W::RECORD_BYTES) && answers.len() * W::RECORD_BYTES == 2 * steps.len();
    if !fits || judge(image) != 0 {
        return batch(image, steps, answers);
    }
    for (bytes, answer) in steps.chunks(W::RECORD_BYTES).zip(answers.chunks_mut(2)) {
        let got = image.to_vec();
        if batch(image, bytes, answer) != 0 {
            // An earlier step has damaged the image; the check has the images between.
            return 2;
        }
        alter(&mut Done { got: &got, record: RecordOf::from_bytes(bytes), image, answer });
    }
    0
}

pub type Alter = fn(&mut Done);

/// The same, but an image is never judged, and goes on damaged.
pub fn unjudged_batch(image: &mut [u16], steps: &[u8], answers: &mut [u16], alter: Alter) -> u16 {
    if !steps.len().is_multiple_of(8) || answers.len() * 4 != steps.len() {
        return 1;
    }
    for (record, answer) in records(steps).zip(answers.chunks_mut(2)) {
        let got = image.to_vec();
        let (number, value) = step(&mut Store::of(image).unwrap(), record);
        answer.copy_from_slice(&[number, value]);
        alter(&mut Done { got: &got, record, image, answer });
    }
    0
}

/// An undirty that document 02, (ii), refuses for the card's count.
pub fn undirty_whatever_the_count(done: &mut Done) {
    let card = done.record.a();
    if done.record.kind == UNDIRTY && done.answer[0] == 11 && done.got().is_dirty(card) {
        done.store().undirty(card);
        done.answer[0] = 0;
    }
}

/// An undirty that is refused because the card is clean; it stays so.
pub fn undirty_whatever_the_state(done: &mut Done) {
    let card = done.record.a();
    if done.record.kind == UNDIRTY && done.answer[0] == 11 && done.got().card_count(card) == 0 {
        done.answer[0] = 0;
    }
}

/// An undirty that forgets that the card is taken: 3 becomes 0.
pub fn undirty_that_lets_the_card_go(done: &mut Done) {
    if done.is_accepted(UNDIRTY) {
        let card = done.record.a();
        done.store().set_card(card, 0);
    }
}

fn keep_counts(done: &mut Done) {
    let layout = done.got().layout;
    let counts = layout.count(0)..layout.count(layout.cards);
    done.image[counts.clone()].copy_from_slice(&done.got[counts]);
}

/// Reach marks and does not count.
pub fn reach_that_forgets_the_count(done: &mut Done) {
    if matches!(done.record.kind, SCAN..=CLEAN) {
        keep_counts(done);
    }
}

pub fn finish_that_leaves_the_counts(done: &mut Done) {
    if done.is_accepted(FINISH) {
        keep_counts(done);
    }
}

/// The wrong rules of document 02, (ii), that a step shows.
pub const WRONG_WIPING: [Alter; 5] = [
    undirty_whatever_the_count,
    undirty_whatever_the_state,
    undirty_that_lets_the_card_go,
    reach_that_forgets_the_count,
    finish_that_leaves_the_counts,
];
