//! How the plain store reads records, and the narrow store's formula of its length.

use reference::layout::{cards_of_length, length, MOST_CARDS};
use reference::plain::form::Form;
use reference::plain::record::{self, Act};

fn read(bytes: &[u8]) -> Result<(usize, Act), u16> {
    record::read(u16::fields(bytes))
}

/// The bytes of a record of 16, given in fours.
fn read_wide(fours: [[u8; 4]; 4]) -> Result<(usize, Act), u16> {
    record::read(u32::fields(&fours.concat()))
}

#[test]
fn wide_fields_low_byte_first() {
    let write = [[8, 2, 0, 0], [3, 0, 0, 0], [4, 1, 2, 3], [9, 8, 7, 0xf6]];
    assert_eq!(read_wide(write), Ok((2, Act::Write { into: 3, level: 0x0302_0104, word: 0xf607_0809 })));
    let new = [[1, 15, 0, 0], [15, 0, 0, 0], [0, 0, 1, 0], [0, 1, 0, 0]];
    assert_eq!(read_wide(new), Ok((15, Act::New { register: 15, granules: 65_536, links: 256 })));
}

#[test]
fn wide_fields_are_compared_whole_and_zero_bytes_come_first() {
    let register = [[6, 0, 0, 0], [0, 0, 1, 0], [0; 4], [0; 4]];
    assert_eq!(read_wide(register), Err(4));
    for place in [2, 3] {
        let mut stray = register;
        stray[0][place] = 1;
        assert_eq!(read_wide(stray), Err(3));
    }
}

#[test]
fn fields_low_byte_first() {
    assert_eq!(read(&[8, 2, 3, 0, 4, 1, 6, 5]), Ok((2, Act::Write { into: 3, level: 260, word: 0x0506 })));
    assert_eq!(read(&[1, 15, 15, 0, 255, 255, 0, 1]), Ok((15, Act::New { register: 15, granules: 65535, links: 256 })));
}

#[test]
fn unnamed_fields_before_the_desk() {
    assert_eq!(read(&[4, 16, 0, 0, 0, 0, 0, 1]), Err(3));
    assert_eq!(read(&[4, 16, 0, 0, 0, 0, 0, 0]), Err(4));
    assert_eq!(read(&[6, 0, 16, 0, 1, 0, 0, 0]), Err(3));
    assert_eq!(read(&[7, 0, 0, 1, 0, 0, 0, 0]), Err(4));
    assert_eq!(read(&[5, 0, 0, 0, 16, 0, 0, 0]), Err(4));
    assert_eq!(read(&[5, 0, 0, 0, 15, 0, 16, 0]), Err(4));
}

/// Links, level words, sizes and words written are no registers.
#[test]
fn what_may_be_large() {
    for bytes in
        [[2, 0, 0, 0, 0, 0, 16, 0], [3, 0, 0, 0, 16, 0, 0, 0], [8, 0, 0, 0, 16, 0, 16, 0], [1, 0, 0, 0, 16, 0, 16, 0]]
    {
        assert!(read(&bytes).is_ok(), "{bytes:?}");
    }
}

#[test]
fn sizes() {
    let is_bad = |granules, links| Act::New { register: 0, granules, links }.is_bad_size();
    assert!(is_bad(0, 0) && is_bad(1025, 0) && is_bad(1, 3) && is_bad(1024, 4095));
    assert!(!is_bad(1, 2) && !is_bad(1024, 4094) && !is_bad(63, 250) && is_bad(63, 251));
}

#[test]
fn length_is_document_02s_formula() {
    for k in 1..=MOST_CARDS {
        assert_eq!(length(k), 266 * k + 1384);
        assert_eq!(cards_of_length(length(k)), Some(k));
        assert_eq!(cards_of_length(length(k) + 1), None);
    }
    assert_eq!(cards_of_length(length(0)), None);
    assert_eq!(cards_of_length(length(MOST_CARDS + 1)), None);
}
