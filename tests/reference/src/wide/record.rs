//! Records of the wide store, from document 02, (ix): "16 bytes: kind, player or tracer, two zero bytes, then a, b, c of 32 bits, low byte first".

use crate::random::Random;
use crate::wide::Record;

pub const RECORD_BYTES: usize = 16;

pub(crate) fn of_bytes(bytes: &[u8]) -> Record {
    let word = |i: usize| u32::from_le_bytes([bytes[i], bytes[i + 1], bytes[i + 2], bytes[i + 3]]);
    Record { kind: bytes[0], who: bytes[1], zeros: [bytes[2], bytes[3]], a: word(4), b: word(8), c: word(12) }
}

pub(crate) fn bytes_of(record: Record) -> Vec<u8> {
    let first = [record.kind, record.who, record.zeros[0], record.zeros[1]];
    [first, record.a.to_le_bytes(), record.b.to_le_bytes(), record.c.to_le_bytes()].concat()
}

/// Sets a byte that must be zero, or lifts a field by a multiple of 65,536: its low half stays as it was.
pub(crate) fn stray(random: &mut Random, record: &mut Record) {
    let byte = random.weighted(&[(3, 1), (2, 16), (1, 255)]);
    let lift = random.weighted(&[(4, 1 << 16), (1, 1 << 17), (1, 1 << 31)]);
    match random.below(5) {
        0 => record.zeros[0] = byte,
        1 => record.zeros[1] = byte,
        2 => record.a = record.a.wrapping_add(lift),
        3 => record.b = record.b.wrapping_add(lift),
        _ => record.c = record.c.wrapping_add(lift),
    }
}
