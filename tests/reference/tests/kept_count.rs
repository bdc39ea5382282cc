//! Document 02, (iv): "keep the count from step to step within a batch [..]; due answers from it without a walk." A count kept so answers as
//! the walk does, over lists that tell each near way to keep it wrongly.

use crate::common::*;
use reference::image::{Image, Store};
use reference::pinned::{lists, run_taken, List, Shown};
use reference::steps::step_by;
use reference::vectors::{parse_batches, BatchCase};
use reference::{batch, Placing};

/// Near ways to keep the count wrongly: the type and the list of all of them.
macro_rules! slips {
    ($($slip:ident),* $(,)?) => {
        #[derive(Clone, Copy, Debug, PartialEq, Eq)]
        enum Slip {
            $($slip),*
        }

        const SLIPS: &[Slip] = &[$($slip),*];
    };
}

slips! {
    StartForgotten,
    NewForgotten,
    UsedUpForgotten,
    RestForgotten,
    NewTakesItsSize,
    FirstRunTaken,
    RefusedNewTaken,
    KeptOverFinish,
    FreedAdded,
    RefusedFinishClears,
    SevensCounted,
    EightsForgotten,
}

use Slip::*;

/// A step as the store runs it, which no count alters: the lengths of the first run and of the one that a new of its size takes from, the answer,
/// and the image left.
struct Stepped<'a> {
    record: Record,
    first_run: Option<usize>,
    run_taken: Option<usize>,
    number: u16,
    value: u16,
    left: Image<'a>,
}

/// The count of a batch, kept rightly or with a slip; a slip may take it below 0.
struct Kept {
    count: isize,
    slip: Option<Slip>,
}

impl Kept {
    /// The one walk, where the batch begins.
    fn at_first(image: Image, slip: Option<Slip>) -> Kept {
        let mut kept = Kept { count: 0, slip };
        if slip != Some(StartForgotten) {
            kept.count = kept.walked(image);
        }
        kept
    }

    fn walked(&self, image: Image) -> isize {
        image.runs().map(|(_, length)| self.counted(length)).sum()
    }

    /// What a run counts for: its granules, if it has 8 or more.
    fn counted(&self, length: usize) -> isize {
        let least = match self.slip {
            Some(SevensCounted) => 7,
            Some(EightsForgotten) => 9,
            _ => 8,
        };
        if length >= least {
            length as isize
        } else {
            0
        }
    }

    /// A new has taken from a run: its rest counts in its place.
    fn take(&mut self, length: usize, size: usize) {
        let rest = length.saturating_sub(size);
        self.count += match self.slip {
            Some(NewForgotten) => 0,
            Some(UsedUpForgotten) if rest == 0 => 0,
            Some(RestForgotten) => -self.counted(length),
            Some(NewTakesItsSize) => -(size as isize),
            _ => self.counted(rest) - self.counted(length),
        };
    }

    fn finish(&mut self, left: Image, freed: u16) {
        self.count = match self.slip {
            Some(KeptOverFinish) => self.count,
            Some(FreedAdded) => self.count + freed as isize,
            _ => self.walked(left),
        };
    }

    /// The answer of one step: an accepted due is answered from the count.
    fn answer(&mut self, step: &Stepped) -> [u16; 2] {
        let record = step.record;
        if record.kind == DUE && !record.is_unknown() {
            return [0, u16::from(self.count < record.a() as isize)];
        }
        let taken = if self.slip == Some(FirstRunTaken) { step.first_run } else { step.run_taken };
        let is_accepted = step.number == 0;
        match (record.kind, taken) {
            (NEW, Some(length)) if is_accepted || self.slip == Some(RefusedNewTaken) => self.take(length, record.b()),
            (FINISH, _) if is_accepted => self.finish(step.left, step.value),
            (FINISH, _) if self.slip == Some(RefusedFinishClears) => self.count = 0,
            _ => {}
        }
        [step.number, step.value]
    }
}

/// The answers of a list in one batch with the count kept in each of these ways. The steps are run once for all of them.
fn kept_answers(placing: Placing, image: &[u16], steps: &[u8], slips: &[Option<Slip>]) -> Vec<Vec<u16>> {
    let mut image = image.to_vec();
    let mut store = Store::of(&mut image).unwrap();
    let mut kept: Vec<Kept> = slips.iter().map(|&slip| Kept::at_first(store.image(), slip)).collect();
    let mut answers = vec![Vec::new(); slips.len()];
    for record in records(steps) {
        let first_run = store.image().runs().next().map(|(_, length)| length);
        let run_taken = if record.kind == NEW { run_taken(placing, store.image(), record.b()) } else { None };
        let (number, value) = step_by(placing, &mut store, record);
        let step = Stepped { record, first_run, run_taken, number, value, left: store.image() };
        for (kept, answers) in kept.iter_mut().zip(&mut answers) {
            answers.extend(kept.answer(&step));
        }
    }
    answers
}

/// The answers of the walk.
fn walked_answers(list: &List) -> Vec<u16> {
    let mut answers = vec![0; list.steps.len() / RECORD_BYTES * 2];
    assert_eq!(batch(&mut list.image.clone(), &list.steps, &mut answers), 0);
    answers
}

#[test]
fn a_kept_count_answers_as_the_walk_does() {
    let mut shown = Shown::default();
    let mut told: Vec<(Slip, usize)> = SLIPS.iter().map(|&slip| (slip, 0)).collect();
    let right_and_slips: Vec<Option<Slip>> = [None].into_iter().chain(SLIPS.iter().copied().map(Some)).collect();
    for list in lists() {
        shown.count(&list);
        let walked = walked_answers(&list);
        let kept = kept_answers(Placing::Tightest, &list.image, &list.steps, &right_and_slips);
        assert!(kept[0] == walked);
        for ((_, told), kept) in told.iter_mut().zip(&kept[1..]) {
            *told += usize::from(*kept != walked);
        }
    }
    println!("{shown:#?}\n{told:?}");
    assert!(shown.is_worth_running(), "{shown:?}");
    assert!(told.iter().all(|&(_, told)| told >= 300), "{told:?}");
}

/// The outside vectors have short batches, and no refused finish before a due that it could move; they tell every other slip. They are
/// by the lowest run.
#[test]
fn the_vectors_tell_slips() {
    let cases = parse_batches(include_str!("../../vectors/document_02/04-iv.txt")).unwrap();
    let cases: Vec<BatchCase> = cases.into_iter().filter(|case| case.result == 0).collect();
    let kept = |case: &BatchCase, slip| kept_answers(Placing::Lowest, &case.image, &case.steps, &[slip]);
    let differs = |case: &&BatchCase, slip| kept(case, slip)[0] != case.given;
    assert!(!cases.iter().any(|case| differs(&case, None)));
    let told_by = |slip| cases.iter().filter(|case| differs(case, Some(slip))).count();
    let told: Vec<(Slip, usize)> = SLIPS.iter().map(|&slip| (slip, told_by(slip))).collect();
    println!("{told:?}");
    assert!(told.iter().all(|&(slip, told)| told >= 1 || slip == RefusedFinishClears), "{told:?}");
}
