//! What the narrow and the wide store do not share: the word, the layout, the record and the limits. Each width has its own, written out from the
//! documents: the narrow one in `layout` and `record`, the wide one in `wide`. All else is said once, for any width.

use std::fmt::Debug;
use std::hash::Hash;

use crate::plain::form::Form;
use crate::random::Random;
use crate::record::RecordOf;

/// The word of a store.
pub trait Width: Form + Copy + Debug + Default + Hash + Ord + 'static {
    type Layout: Places;

    const MOST_CARDS: usize;
    const CARD_GRANULES: usize;
    const GRANULE_WORDS: usize;
    const LARGEST_OBJECT: usize;
    const PLAYERS: usize;
    const REGISTERS: usize;
    const PACKETS: usize;
    const ENTRIES: usize;
    const TRACERS: usize;
    /// The granules for which a word of start bits or mark bits stands.
    const BITS: usize;
    const RECORD_BYTES: usize;

    /// The low bits of a number.
    fn cut(number: u64) -> Self;

    fn record(bytes: &[u8]) -> RecordOf<Self>;

    fn bytes(record: RecordOf<Self>) -> Vec<u8>;

    /// In so many of a hundred cases alters what only a record of this width has, if it has anything.
    fn stray(random: &mut Random, percent: usize, record: &mut RecordOf<Self>);

    fn number(self) -> usize {
        let number: u64 = self.into();
        number as usize
    }

    fn of(number: usize) -> Self {
        let word = Self::cut(number as u64);
        assert_eq!(word.number(), number, "a store's numbers fit in a word");
        word
    }

    /// The number of words of a store with `k` cards.
    fn length(k: usize) -> usize {
        Self::Layout::of_cards(k).length()
    }

    /// "An object's card is its first granule divided by 64, rounded down."
    fn card_of(g: usize) -> usize {
        g / Self::CARD_GRANULES
    }
}

/// The first word of each part of an image, or of one of its items.
pub trait Places: Copy + Debug + PartialEq {
    fn of_cards(k: usize) -> Self;
    /// The layout of a store with `n` words, if a store may have so many.
    fn of_length(n: usize) -> Option<Self>;
    fn cards(self) -> usize;
    fn granules(self) -> usize;
    fn granule(self, g: usize) -> usize;
    fn start_bits(self) -> usize;
    fn mark_bits(self) -> usize;
    fn card(self, c: usize) -> usize;
    fn count(self, c: usize) -> usize;
    fn register(self, player: usize, r: usize) -> usize;
    fn packet(self, n: usize) -> usize;
    fn tracer(self, t: usize) -> usize;
    fn player(self, p: usize) -> usize;
    fn general(self) -> usize;
    fn length(self) -> usize;
}
