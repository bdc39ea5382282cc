//! Calls that are timed and then held to what the second implementation answers. Copying and comparing are outside the time.

use std::hint::black_box;
use std::time::Duration;

use library::Exported;
use reference::image::Store;
use reference::record::{records, RECORD_BYTES};
use reference::steps::step;
use reference::vectors::{untouched, UNTOUCHED};

use crate::timing::timed;

/// A batch of the narrow store, unless another word is named.
pub type Batch<W = u16> = fn(&mut [W], &[u8], &mut [W]) -> u16;

/// A list in batches of `size` records on a copy of an image, and what it must leave and answer.
pub struct Call<'a, W = u16> {
    image: &'a [W],
    steps: &'a [u8],
    size: usize,
    left: Vec<W>,
    answers: Vec<W>,
}

impl<'a, W: Exported> Call<'a, W> {
    /// The list in one batch; the empty list too is one batch.
    pub fn new(image: &'a [W], steps: &'a [u8]) -> Call<'a, W> {
        Call::in_batches(image, steps, (steps.len() / W::RECORD_BYTES).max(1))
    }

    pub fn in_batches(image: &'a [W], steps: &'a [u8], size: usize) -> Call<'a, W> {
        let mut left = image.to_vec();
        let mut answers = vec![untouched(); steps.len() / W::RECORD_BYTES * 2];
        assert_eq!(reference::batch(&mut left, steps, &mut answers), 0);
        assert_undamaged(&left);
        Call { image, steps, size, left, answers }
    }

    /// The time of all batches. Each must answer 0, and the image and the answers must be the second implementation's.
    pub fn time(&self, batch: Batch<W>) -> Duration {
        let mut image = self.image.to_vec();
        let mut answers = vec![untouched(); self.answers.len()];
        let mut result = 0;
        let took = timed(|| {
            if self.steps.is_empty() {
                result |= batch(&mut image, &[], &mut []);
            }
            let parts = self.steps.chunks(W::RECORD_BYTES * self.size).zip(answers.chunks_mut(2 * self.size));
            for (steps, answers) in parts {
                result |= batch(&mut image, steps, answers);
            }
        });
        assert_eq!(result, 0, "the result of a timed batch");
        assert!(image == self.left, "the image that a timed batch left");
        assert!(answers == self.answers, "the answers of a timed batch");
        took
    }
}

pub fn assert_undamaged<W: Exported>(image: &[W]) {
    assert_eq!((W::judge(image), reference::judge(image)), (0, 0), "the verdict on an image");
}

pub type Judge<W = u16> = fn(&[W]) -> u16;

/// The time of judging images one after the other, all of them undamaged.
pub fn judge_all<W>(judge: Judge<W>, images: &[Vec<W>]) -> Duration {
    let mut verdict = 0;
    let took = timed(|| {
        for image in images {
            verdict |= judge(black_box(image));
        }
    });
    assert_eq!(verdict, 0, "the verdict on an undamaged image");
    took
}

/// The time of one batch of the library.
fn timed_batch(image: &mut [u16], steps: &[u8], answers: &mut [u16]) -> Duration {
    let mut result = 0;
    let took = timed(|| result = library::batch(image, steps, answers));
    assert_eq!(result, 0, "the result of a batch");
    took
}

/// One store run by the library and by the second implementation side by side.
pub struct Pair {
    image: Vec<u16>,
    second: Vec<u16>,
}

/// What a batch of the library took and answered.
pub struct Ran {
    pub took: Duration,
    pub answers: Vec<u16>,
}

/// What the batch of a finish took, what judging its image took, and the finish's number.
pub struct Halt {
    pub whole: Duration,
    pub judging: Duration,
    pub number: u16,
}

impl Pair {
    pub fn new(image: Vec<u16>) -> Pair {
        Pair { second: image.clone(), image }
    }

    pub fn image(&self) -> &[u16] {
        &self.image
    }

    /// One batch of the library, timed. The second implementation's steps on its own image must leave and answer the same. The
    /// image that is left is judged by the next batch, which answers 0 for no damaged one, and by `end` after the last.
    pub fn run(&mut self, steps: &[u8]) -> Ran {
        let mut answers = vec![UNTOUCHED; steps.len() / RECORD_BYTES * 2];
        let took = timed_batch(&mut self.image, steps, &mut answers);
        let mut store = Store::of(&mut self.second).expect("a fitting length");
        for (record, answer) in records(steps).zip(answers.chunks(2)) {
            let (number, value) = step(&mut store, record);
            assert_eq!(answer, [number, value], "the answer of {record:?}");
        }
        assert!(self.image == self.second, "the image that a batch left");
        Ran { took, answers }
    }

    /// One batch as in `run`, timed three times, twice on copies, and the judging of the same image: the shortest timings count, since
    /// a batch that another program has interrupted says nothing of the library.
    pub fn run_and_judge(&mut self, steps: &[u8]) -> Halt {
        let got = self.image.clone();
        let ran = self.run(steps);
        let mut halt = Halt { whole: ran.took, judging: Duration::MAX, number: ran.answers[0] };
        for _ in 0..2 {
            let (mut image, mut answers) = (got.clone(), vec![UNTOUCHED; ran.answers.len()]);
            halt.whole = halt.whole.min(timed_batch(&mut image, steps, &mut answers));
            assert!(image == self.image && answers == ran.answers, "a batch done again");
            halt.judging = halt.judging.min(judge_all(library::judge, std::slice::from_ref(&got)));
        }
        halt
    }

    pub fn end(self) {
        assert_undamaged(&self.image);
    }
}
