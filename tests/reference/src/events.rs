//! Lists of batches, and what such a list comes to under an implementation of `batch`. Records are kept as their bytes.

use crate::plain::record::NEW;
use crate::record::RECORD_BYTES;
use crate::vectors::UNTOUCHED;

pub(crate) const NO_ROOM: u16 = 9;

/// An image and batches for it, as step bytes and number of answer words.
pub struct List {
    pub image: Vec<u16>,
    pub batches: Vec<(Vec<u8>, usize)>,
}

/// What a list of batches has come to: the result of each batch, and of the accepted ones each record with its answer.
pub struct Events {
    pub results: Vec<u16>,
    pub records: Vec<Event>,
}

pub struct Event {
    pub bytes: Vec<u8>,
    pub number: u16,
    pub value: u16,
}

impl Event {
    pub(crate) fn is_new(&self) -> bool {
        self.bytes[0] == NEW
    }

    pub(crate) fn is_new_without_room(&self) -> bool {
        self.is_new() && self.number == NO_ROOM
    }
}

/// Runs the batches, given as step bytes and number of answer words, each on the image that the last left.
pub fn events(
    first_image: &[u16],
    batches: &[(Vec<u8>, usize)],
    mut run: impl FnMut(&mut [u16], &[u8], &mut [u16]) -> u16,
) -> Events {
    let mut image = first_image.to_vec();
    let mut events = Events { results: Vec::new(), records: Vec::new() };
    for (steps, answer_words) in batches {
        let mut answers = vec![UNTOUCHED; *answer_words];
        let result = run(&mut image, steps, &mut answers);
        events.results.push(result);
        if result == 0 {
            let answered = steps.chunks_exact(RECORD_BYTES).zip(answers.chunks_exact(2));
            let event =
                |(bytes, answer): (&[u8], &[u16])| Event { bytes: bytes.to_vec(), number: answer[0], value: answer[1] };
            events.records.extend(answered.map(event));
        }
    }
    events
}
