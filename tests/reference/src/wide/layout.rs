//! Where the parts of an image of the wide store lie, and the rule of its length, from document 02, (ix): "k from 1 to 65,536, granules still of
//! four words, 32 bits to a bit word, so that the length is 262 × k + 1384 words".

use crate::random::Random;
use crate::record::RecordOf;
use crate::wide::record;
use crate::width::{Places, Width};

/// The number of words of a wide store with `k` cards.
pub fn length(k: usize) -> usize {
    262 * k + 1384
}

/// The number of cards of a wide store with `n` words, if one may have so many.
pub fn cards_of_length(n: usize) -> Option<usize> {
    let in_cards = n.checked_sub(1384)?;
    let cards = in_cards / 262;
    (in_cards % 262 == 0 && (1..=65_536).contains(&cards)).then_some(cards)
}

/// A card has 256 words of heap, two of start bits, two of mark bits, its state and its count. Behind those of all cards lie 256 words of registers,
/// 1,024 of packets, 64 of tracers, 32 of players and 8 more.
#[derive(Clone, Copy, Debug, PartialEq, Eq)]
pub struct Layout {
    pub cards: usize,
}

impl Places for Layout {
    fn of_cards(cards: usize) -> Layout {
        Layout { cards }
    }

    fn of_length(n: usize) -> Option<Layout> {
        cards_of_length(n).map(|cards| Layout { cards })
    }

    fn cards(self) -> usize {
        self.cards
    }

    fn granules(self) -> usize {
        64 * self.cards
    }

    fn granule(self, g: usize) -> usize {
        4 * g
    }

    fn start_bits(self) -> usize {
        256 * self.cards
    }

    fn mark_bits(self) -> usize {
        258 * self.cards
    }

    fn card(self, c: usize) -> usize {
        260 * self.cards + c
    }

    fn count(self, c: usize) -> usize {
        261 * self.cards + c
    }

    fn register(self, player: usize, r: usize) -> usize {
        262 * self.cards + 16 * player + r
    }

    fn packet(self, n: usize) -> usize {
        262 * self.cards + 256 + 32 * n
    }

    fn tracer(self, t: usize) -> usize {
        262 * self.cards + 1280 + 8 * t
    }

    fn player(self, p: usize) -> usize {
        262 * self.cards + 1344 + 2 * p
    }

    fn general(self) -> usize {
        262 * self.cards + 1376
    }

    fn length(self) -> usize {
        length(self.cards)
    }
}

/// "Object sizes, players, tracers and packets keep their limits."
impl Width for u32 {
    type Layout = Layout;

    const MOST_CARDS: usize = 65_536;
    const CARD_GRANULES: usize = 64;
    const GRANULE_WORDS: usize = 4;
    const LARGEST_OBJECT: usize = 1024;
    const PLAYERS: usize = 16;
    const REGISTERS: usize = 16;
    const PACKETS: usize = 32;
    const ENTRIES: usize = 30;
    const TRACERS: usize = 8;
    const BITS: usize = 32;
    const RECORD_BYTES: usize = 16;

    fn cut(number: u64) -> u32 {
        number as u32
    }

    fn record(bytes: &[u8]) -> RecordOf<u32> {
        record::of_bytes(bytes)
    }

    fn bytes(record: RecordOf<u32>) -> Vec<u8> {
        record::bytes_of(record)
    }

    fn stray(random: &mut Random, percent: usize, record: &mut RecordOf<u32>) {
        if random.chance(percent) {
            record::stray(random, record);
        }
    }
}
