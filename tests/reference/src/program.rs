//! What the program steprun prints, as document 01 describes it.

use crate::made::fresh_image;
use crate::record::{records, RECORD_BYTES};
use crate::steps::{batch_by, Placing};

pub const CARDS: usize = 16;
pub const MOST_BYTES: usize = 8192;

/// The lines for the bytes read from standard input: "place from 1, kind, number, value"; "longer input or a part record prints
/// `misfit` alone".
pub fn lines(steps: &[u8]) -> String {
    lines_by(Placing::Tightest, steps)
}

/// The same under either rule of placing.
pub fn lines_by(placing: Placing, steps: &[u8]) -> String {
    if steps.len() > MOST_BYTES || !steps.len().is_multiple_of(RECORD_BYTES) {
        return "misfit\n".to_string();
    }
    let mut answers = vec![0u16; steps.len() / RECORD_BYTES * 2];
    assert_eq!(batch_by(placing, &mut fresh_image(CARDS), steps, &mut answers), 0);
    let answers = answers.chunks(2).zip(records(steps)).enumerate();
    answers.map(|(i, (answer, record))| format!("{} {} {} {}\n", i + 1, record.kind, answer[0], answer[1])).collect()
}
