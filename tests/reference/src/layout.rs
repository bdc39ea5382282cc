//! Where the parts of an image of the narrow store lie, and the rule of its length.

use crate::random::Random;
use crate::record::{RecordOf, RECORD_BYTES};
pub use crate::width::Places;
use crate::width::Width;

pub const MOST_CARDS: usize = 512;
pub const CARD_GRANULES: usize = 64;
pub const GRANULE_WORDS: usize = 4;
pub const LARGEST_OBJECT: usize = 1024;
pub const PLAYERS: usize = 16;
pub const REGISTERS: usize = 16;
pub const PACKETS: usize = 32;
pub const ENTRIES: usize = 30;
pub const TRACERS: usize = 8;

/// "Bit j (worth 2 to the j) of word w stands for granule 16 × w + j."
const BITS: usize = 16;

/// The words that a card has of the heap, and of the start bits or the mark bits.
const HEAP_WORDS: usize = GRANULE_WORDS * CARD_GRANULES;
const BIT_WORDS: usize = CARD_GRANULES / BITS;

/// All words of a card: heap, start bits, mark bits, its state and, by document 02, (ii), "one word per card with the number of marked objects on it,
/// placed after the card words".
const CARD_WORDS: usize = HEAP_WORDS + 2 * BIT_WORDS + 2;

const PACKET_WORDS: usize = 32;
const TRACER_WORDS: usize = 8;
const PLAYER_WORDS: usize = 2;
const GENERAL_WORDS: usize = 8;

/// Where the parts lie that come behind the words of all cards. The registers are the first.
const FIRST_PACKET: usize = REGISTERS * PLAYERS;
const FIRST_TRACER: usize = FIRST_PACKET + PACKET_WORDS * PACKETS;
const FIRST_PLAYER: usize = FIRST_TRACER + TRACER_WORDS * TRACERS;
const GENERAL: usize = FIRST_PLAYER + PLAYER_WORDS * PLAYERS;

/// The number of words of a store with `k` cards.
pub fn length(k: usize) -> usize {
    Layout { cards: k }.length()
}

/// The number of cards of a store with `n` words, if a store may have so many.
pub fn cards_of_length(n: usize) -> Option<usize> {
    let k = n.checked_sub(length(0))? / CARD_WORDS;
    ((1..=MOST_CARDS).contains(&k) && length(k) == n).then_some(k)
}

/// The card of the object that starts at granule `g`.
pub fn card_of(g: usize) -> usize {
    g / CARD_GRANULES
}

/// The first word of each part. The order is that of the documents; each part begins where the last ends.
#[derive(Clone, Copy, Debug, PartialEq, Eq)]
pub struct Layout {
    pub cards: usize,
}

impl Places for Layout {
    fn of_cards(cards: usize) -> Layout {
        Layout { cards }
    }

    fn of_length(n: usize) -> Option<Layout> {
        cards_of_length(n).map(|cards| Layout { cards })
    }

    fn cards(self) -> usize {
        self.cards
    }

    fn granules(self) -> usize {
        CARD_GRANULES * self.cards
    }

    fn granule(self, g: usize) -> usize {
        GRANULE_WORDS * g
    }

    fn start_bits(self) -> usize {
        HEAP_WORDS * self.cards
    }

    fn mark_bits(self) -> usize {
        (HEAP_WORDS + BIT_WORDS) * self.cards
    }

    fn card(self, c: usize) -> usize {
        (HEAP_WORDS + 2 * BIT_WORDS) * self.cards + c
    }

    fn count(self, c: usize) -> usize {
        (HEAP_WORDS + 2 * BIT_WORDS + 1) * self.cards + c
    }

    fn register(self, player: usize, r: usize) -> usize {
        CARD_WORDS * self.cards + REGISTERS * player + r
    }

    fn packet(self, n: usize) -> usize {
        CARD_WORDS * self.cards + FIRST_PACKET + PACKET_WORDS * n
    }

    fn tracer(self, t: usize) -> usize {
        CARD_WORDS * self.cards + FIRST_TRACER + TRACER_WORDS * t
    }

    fn player(self, p: usize) -> usize {
        CARD_WORDS * self.cards + FIRST_PLAYER + PLAYER_WORDS * p
    }

    fn general(self) -> usize {
        CARD_WORDS * self.cards + GENERAL
    }

    fn length(self) -> usize {
        self.general() + GENERAL_WORDS
    }
}

impl Width for u16 {
    type Layout = Layout;

    const MOST_CARDS: usize = MOST_CARDS;
    const CARD_GRANULES: usize = CARD_GRANULES;
    const GRANULE_WORDS: usize = GRANULE_WORDS;
    const LARGEST_OBJECT: usize = LARGEST_OBJECT;
    const PLAYERS: usize = PLAYERS;
    const REGISTERS: usize = REGISTERS;
    const PACKETS: usize = PACKETS;
    const ENTRIES: usize = ENTRIES;
    const TRACERS: usize = TRACERS;
    const BITS: usize = BITS;
    const RECORD_BYTES: usize = RECORD_BYTES;

    fn cut(number: u64) -> u16 {
        number as u16
    }

    fn record(bytes: &[u8]) -> RecordOf<u16> {
        crate::record::of_bytes(bytes)
    }

    fn bytes(record: RecordOf<u16>) -> Vec<u8> {
        crate::record::bytes_of(record)
    }

    fn stray(_: &mut Random, _: usize, _: &mut RecordOf<u16>) {}
}
