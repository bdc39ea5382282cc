//! The first image as the plain store reads it, from the documents' layout anew and not by `crate::image`, which the real steps use.

use super::form::Form;

/// The words of an undamaged image of `k` cards.
pub struct First<'a, W> {
    words: &'a [W],
    k: usize,
}

/// An object's links and level words as they stand in the image.
pub struct FirstObject<'a, W> {
    pub granule: usize,
    pub links: &'a [W],
    pub levels: &'a [W],
}

impl<'a, W: Form> First<'a, W> {
    /// "an image is then 266 × k + 1384 words", or "262 × k + 1384 words"
    pub fn of(words: &'a [W]) -> First<'a, W> {
        First { words, k: (words.len() - 1384) / W::CARD_WORDS }
    }

    fn word(&self, at: usize) -> usize {
        let word: u64 = self.words[at].into();
        word as usize
    }

    /// "Start bits are set at every object's first granule"; the heap, 4 × 64 × k words, lies before them.
    fn is_start(&self, granule: usize) -> bool {
        let word = self.word(256 * self.k + granule / W::STARTS_TO_A_WORD);
        word / (1 << (granule % W::STARTS_TO_A_WORD)) % 2 == 1
    }

    pub fn objects(&self) -> impl Iterator<Item = FirstObject<'a, W>> + '_ {
        (1..64 * self.k).filter(|&granule| self.is_start(granule)).map(|granule| self.object(granule))
    }

    /// "its size in granules, its number of links, the links, then level words"
    fn object(&self, granule: usize) -> FirstObject<'a, W> {
        let size = self.word(4 * granule);
        let count = self.word(4 * granule + 1);
        let (links, levels) = self.words[4 * granule + 2..4 * (granule + size)].split_at(count);
        FirstObject { granule, links, levels }
    }

    /// "Registers: 16 players of 16 words", after a heap of 256 words a card, bits of 4 and 4 or of 2 and 2, the card's own word and its count.
    pub fn register(&self, player: usize, register: usize) -> usize {
        self.word(W::CARD_WORDS * self.k + 16 * player + register)
    }

    /// "Players, 16 of 2 words: owed card + 1 or 0", after 256 words of registers, 1,024 of packets and 64 of tracers.
    pub fn owes(&self, player: usize) -> bool {
        self.word(W::CARD_WORDS * self.k + 1344 + 2 * player) != 0
    }
}
