//! What the plain store must know of a width, read from the documents anew and not by `crate::layout`, `crate::wide` or `crate::record`, which the
//! real steps use: a mistake made there would else be made here too, and no list would show it.

/// The word of a store, as the plain store sees it.
pub trait Form: Copy + Into<u64> {
    const STEP_BYTES: usize;
    /// The words that an image has for each card.
    const CARD_WORDS: usize;
    /// The granules to a word of start bits.
    const STARTS_TO_A_WORD: usize;

    fn fields(bytes: &[u8]) -> Fields;
}

/// The bytes of a record as numbers.
#[derive(Clone, Copy, Debug, PartialEq, Eq)]
pub struct Fields {
    pub kind: u8,
    pub who: usize,
    /// A byte that must be zero is not.
    pub is_stray: bool,
    pub a: u64,
    pub b: u64,
    pub c: u64,
}

fn low_byte_first(bytes: &[u8]) -> u64 {
    bytes.iter().rev().fold(0, |number, &byte| 256 * number + u64::from(byte))
}

/// "records of 8 bytes with no header: kind, player or tracer, then a, b, c, 16 bits each"; "an image is then 266 × k + 1384 words".
impl Form for u16 {
    const STEP_BYTES: usize = 8;
    const CARD_WORDS: usize = 266;
    const STARTS_TO_A_WORD: usize = 16;

    fn fields(bytes: &[u8]) -> Fields {
        let [a, b, c] = [&bytes[2..4], &bytes[4..6], &bytes[6..8]].map(low_byte_first);
        Fields { kind: bytes[0], who: usize::from(bytes[1]), is_stray: false, a, b, c }
    }
}

/// "16 bytes: kind, player or tracer, two zero bytes, then a, b, c of 32 bits"; "the length is 262 × k + 1384 words"; "32 bits to a bit word".
impl Form for u32 {
    const STEP_BYTES: usize = 16;
    const CARD_WORDS: usize = 262;
    const STARTS_TO_A_WORD: usize = 32;

    fn fields(bytes: &[u8]) -> Fields {
        let [a, b, c] = [&bytes[4..8], &bytes[8..12], &bytes[12..16]].map(low_byte_first);
        let is_stray = bytes[2] > 0 || bytes[3] > 0;
        Fields { kind: bytes[0], who: usize::from(bytes[1]), is_stray, a, b, c }
    }
}
