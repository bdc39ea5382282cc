//! Document 02, (vii): "After an accepted begin and up to the next accepted finish, at most 12 × G trace and clean steps are accepted", "with the
//! count taken from the answers of the steps." The count for any implementation of `batch`. Records are read here by their bytes, never by
//! `crate::record`, which the real steps use.

use crate::events::{Event, Events};
use crate::layout::cards_of_length;
use crate::record::RECORD_BYTES;

const BEGIN: u8 = 9;
const TRACE: u8 = 11;
const CLEAN: u8 = 12;
const FINISH: u8 = 13;

/// "at most 12 × G", of a store of k cards.
pub fn at_most(k: usize) -> usize {
    12 * 64 * k
}

/// The sharper figure: 8 × G + 2 × k.
pub fn at_most_sharper(k: usize) -> usize {
    8 * 64 * k + 2 * k
}

/// Accepted trace and clean steps.
#[derive(Clone, Copy, Debug, Default, PartialEq, Eq)]
pub struct Work {
    pub traces: usize,
    pub cleans: usize,
}

impl Work {
    pub fn accepted(self) -> usize {
        self.traces + self.cleans
    }

    fn count(&mut self, bytes: &[u8], number: u16) {
        self.traces += usize::from((bytes[0], number) == (TRACE, 0));
        self.cleans += usize::from((bytes[0], number) == (CLEAN, 0));
    }

    /// The error tells which of the figures is exceeded.
    fn check(self, k: usize) -> Result<(), String> {
        let accepted = self.accepted();
        let figures = [("12 × G", at_most(k)), ("8 × G + 2 × k", at_most_sharper(k))];
        match figures.into_iter().find(|&(_, most)| accepted > most) {
            Some((figure, most)) => {
                Err(format!("a cycle accepts {accepted} trace and clean steps, over {figure} = {most}"))
            }
            None => Ok(()),
        }
    }
}

/// The work of an accepted batch, in a cycle or not.
pub fn work_in(steps: &[u8], answers: &[u16]) -> Work {
    let mut work = Work::default();
    steps.chunks(RECORD_BYTES).zip(answers.chunks(2)).for_each(|(bytes, answer)| work.count(bytes, answer[0]));
    work
}

/// The work of each cycle of a list that the list has the begin of.
#[derive(Clone, Debug, Default)]
pub struct Cycles {
    ended: Vec<Work>,
    running: Option<Work>,
}

impl Cycles {
    /// A record of an accepted batch with the number of its answer. A begin that is accepted in a cycle, which is wrong, ends no stretch "up to the
    /// next accepted finish".
    pub fn count(&mut self, bytes: &[u8], number: u16) {
        match (bytes[0], number) {
            (BEGIN, 0) => {
                self.running.get_or_insert_default();
            }
            (FINISH, 0) => self.ended.extend(self.running.take()),
            _ => self.running.iter_mut().for_each(|work| work.count(bytes, number)),
        }
    }

    pub fn of(events: &Events) -> Cycles {
        let mut cycles = Cycles::default();
        events.records.iter().for_each(|Event { bytes, number, .. }| cycles.count(bytes, *number));
        cycles
    }

    /// In their order; the last may have no finish.
    pub fn works(&self) -> impl Iterator<Item = Work> + '_ {
        self.ended.iter().copied().chain(self.running)
    }

    /// Both figures hold of each cycle, if they hold of the one with the most work.
    pub fn check(&self, k: usize) -> Result<Most, String> {
        let Some((n, work)) = self.works().enumerate().max_by_key(|(_, work)| work.accepted()) else {
            return Ok(Most::default());
        };
        work.check(k).map_err(|e| format!("cycle {n}: {e}"))?;
        Ok(Most { accepted: work.accepted(), percent: 100 * work.accepted() / at_most_sharper(k) })
    }
}

/// The check of the count alone.
pub fn check_work(first_image: &[u16], events: &Events) -> Result<Most, String> {
    let k = cards_of_length(first_image.len()).ok_or("an image that fits no store")?;
    Cycles::of(events).check(k)
}

/// The most work of a cycle, and how much of the sharper figure the cycle comes to that is closest to it.
#[derive(Clone, Copy, Debug, Default, PartialEq, Eq)]
pub struct Most {
    pub accepted: usize,
    pub percent: usize,
}

impl Most {
    pub fn add(&mut self, other: Most) {
        self.accepted = self.accepted.max(other.accepted);
        self.percent = self.percent.max(other.percent);
    }
}
