//! Reading and writing the parts of an image of fitting length, of either width.

use std::ops::Range;

use crate::width::{Places, Width};

/// An image to read. Nothing is promised of its words.
#[derive(Clone, Copy)]
pub struct ImageOf<'a, W: Width> {
    pub words: &'a [W],
    pub layout: W::Layout,
}

/// An image of the narrow store.
pub type Image<'a> = ImageOf<'a, u16>;

/// An object of an image whose heap is sound.
#[derive(Clone, Copy, Debug, PartialEq, Eq)]
pub struct Object<'a, W = u16> {
    pub start: usize,
    pub size: usize,
    pub links: &'a [W],
    pub levels: &'a [W],
}

/// What a tracer holds.
#[derive(Clone, Copy, Debug, Default, PartialEq, Eq)]
pub struct Tracer {
    pub input: Option<usize>,
    pub output: Option<usize>,
    /// The object in hand and its next link.
    pub hand: Option<(usize, usize)>,
    /// The card in hand and the next granule on it.
    pub card: Option<(usize, usize)>,
}

impl<'a, W: Width> ImageOf<'a, W> {
    pub fn of(words: &'a [W]) -> Option<ImageOf<'a, W>> {
        W::Layout::of_length(words.len()).map(|layout| ImageOf { words, layout })
    }

    pub fn word(self, at: usize) -> usize {
        self.words[at].number()
    }

    pub fn granules(self) -> usize {
        self.layout.granules()
    }

    pub fn cards(self) -> usize {
        self.layout.cards()
    }

    /// "Bit j (worth 2 to the j) of word w stands for granule 16 × w + j", or 32 × w + j.
    fn bit(self, bits: usize, g: usize) -> bool {
        self.word(bits + g / W::BITS) >> (g % W::BITS) & 1 == 1
    }

    /// The granules of a stretch whose bits are set, in rising order. A word without any is passed over at once: in large stores most are.
    fn set_bits(self, bits: usize, stretch: Range<usize>) -> impl Iterator<Item = usize> + 'a {
        let Range { start, end } = stretch;
        let mut w = start / W::BITS;
        let mut rest = if start < end { self.word(bits + w) & usize::MAX << (start % W::BITS) } else { 0 };
        std::iter::from_fn(move || {
            while rest == 0 {
                w += 1;
                if W::BITS * w >= end {
                    return None;
                }
                rest = self.word(bits + w);
            }
            let g = W::BITS * w + rest.trailing_zeros() as usize;
            rest &= rest - 1;
            (g < end).then_some(g)
        })
    }

    pub fn is_start(self, g: usize) -> bool {
        self.bit(self.layout.start_bits(), g)
    }

    pub fn is_marked(self, g: usize) -> bool {
        self.bit(self.layout.mark_bits(), g)
    }

    pub fn card(self, c: usize) -> usize {
        self.word(self.layout.card(c))
    }

    pub fn is_dirty(self, c: usize) -> bool {
        matches!(self.card(c), 1 | 3)
    }

    /// A card's count: the number of marked objects on it, if the image is right.
    pub fn card_count(self, c: usize) -> usize {
        self.word(self.layout.count(c))
    }

    pub fn register(self, player: usize, r: usize) -> usize {
        self.word(self.layout.register(player, r))
    }

    pub fn registers_of(self, player: usize) -> impl Iterator<Item = usize> + 'a {
        (0..W::REGISTERS).map(move |r| self.register(player, r))
    }

    pub fn registers(self) -> impl Iterator<Item = usize> + 'a {
        (0..W::PLAYERS).flat_map(move |p| self.registers_of(p))
    }

    pub fn count(self, packet: usize) -> usize {
        self.word(self.layout.packet(packet))
    }

    /// The 30 entry words; those past the count are no entries.
    pub fn entry_words(self, packet: usize) -> &'a [W] {
        let first = self.layout.packet(packet) + 2;
        &self.words[first..first + W::ENTRIES]
    }

    pub fn entries(self, packet: usize) -> &'a [W] {
        &self.entry_words(packet)[..self.count(packet)]
    }

    /// All entries of all packets; the counts must be sound.
    pub fn entered(self) -> impl Iterator<Item = usize> + 'a {
        (0..W::PACKETS).flat_map(move |n| self.entries(n)).map(|&e| e.number())
    }

    pub fn tracer(self, t: usize) -> Tracer {
        let word = |i| self.word(self.layout.tracer(t) + i);
        Tracer {
            input: word(0).checked_sub(1),
            output: word(1).checked_sub(1),
            hand: (word(2) != 0).then(|| (word(2), word(3))),
            card: word(4).checked_sub(1).map(|c| (c, word(5))),
        }
    }

    pub fn tracers(self) -> impl Iterator<Item = Tracer> + 'a {
        (0..W::TRACERS).map(move |t| self.tracer(t))
    }

    pub fn owed_card(self, player: usize) -> Option<usize> {
        self.word(self.layout.player(player)).checked_sub(1)
    }

    pub fn is_scanned(self, player: usize) -> bool {
        self.word(self.layout.player(player) + 1) != 0
    }

    pub fn is_running(self) -> bool {
        self.word(self.layout.general()) != 0
    }

    pub fn first_run(self) -> usize {
        self.word(self.layout.general() + 1)
    }

    /// The object at a start of a sound heap.
    pub fn object(self, start: usize) -> Object<'a, W> {
        let first = self.layout.granule(start);
        let size = self.word(first);
        let links = first + 2;
        let levels = links + self.word(first + 1);
        let end = first + W::GRANULE_WORDS * size;
        Object { start, size, links: &self.words[links..levels], levels: &self.words[levels..end] }
    }

    pub fn starts(self) -> impl Iterator<Item = usize> + 'a {
        self.starts_in(1..self.granules())
    }

    pub fn starts_in(self, stretch: Range<usize>) -> impl Iterator<Item = usize> + 'a {
        self.set_bits(self.layout.start_bits(), stretch)
    }

    pub fn marked_in(self, stretch: Range<usize>) -> impl Iterator<Item = usize> + 'a {
        self.set_bits(self.layout.mark_bits(), stretch)
    }

    pub fn objects(self) -> impl Iterator<Item = Object<'a, W>> + 'a {
        self.starts().map(move |g| self.object(g))
    }

    /// The free runs in chain order, as first granule and length; the chain must be sound.
    pub fn runs(self) -> impl Iterator<Item = (usize, usize)> + 'a {
        let run = |g: usize| (g != 0).then_some(g);
        std::iter::successors(run(self.first_run()), move |&g| run(self.word(self.layout.granule(g) + 1)))
            .map(move |g| (g, self.word(self.layout.granule(g))))
    }
}

/// An image to write.
pub struct StoreOf<'a, W: Width> {
    pub words: &'a mut [W],
    pub layout: W::Layout,
}

/// An image of the narrow store to write.
pub type Store<'a> = StoreOf<'a, u16>;

impl<'a, W: Width> StoreOf<'a, W> {
    pub fn of(words: &'a mut [W]) -> Option<StoreOf<'a, W>> {
        W::Layout::of_length(words.len()).map(|layout| StoreOf { words, layout })
    }

    pub fn image(&self) -> ImageOf<'_, W> {
        ImageOf { words: self.words, layout: self.layout }
    }

    pub fn set(&mut self, at: usize, value: usize) {
        self.words[at] = W::of(value);
    }

    fn set_bit(&mut self, bits: usize, g: usize, on: bool) {
        let mask = 1 << (g % W::BITS);
        let at = bits + g / W::BITS;
        let word = self.image().word(at);
        self.set(at, if on { word | mask } else { word & !mask });
    }

    pub fn set_start(&mut self, g: usize, on: bool) {
        self.set_bit(self.layout.start_bits(), g, on);
    }

    pub fn set_mark(&mut self, g: usize, on: bool) {
        self.set_bit(self.layout.mark_bits(), g, on);
    }

    /// Marks an object that is not marked, and counts it on its card: an object counts on its first granule's.
    pub fn mark(&mut self, g: usize) {
        assert!(!self.image().is_marked(g));
        self.set_mark(g, true);
        let c = W::card_of(g);
        self.set_card_count(c, self.image().card_count(c) + 1);
    }

    /// Makes every count the number of mark bits on its card.
    pub fn count_marks(&mut self) {
        for c in 0..self.layout.cards() {
            let on_card = W::CARD_GRANULES * c..W::CARD_GRANULES * (c + 1);
            let count = self.image().marked_in(on_card).count();
            self.set_card_count(c, count);
        }
    }

    pub fn set_card_count(&mut self, c: usize, count: usize) {
        self.set(self.layout.count(c), count);
    }

    pub fn set_card(&mut self, c: usize, state: usize) {
        self.set(self.layout.card(c), state);
    }

    /// "0 to 1, 2 to 3; 1 and 3 stay"
    pub fn dirty(&mut self, c: usize) {
        let state = self.image().card(c);
        self.set_card(c, state | 1);
    }

    /// Document 02, (ii): "it turns state 1 to 0 and 3 to 2".
    pub fn undirty(&mut self, c: usize) {
        let state = self.image().card(c);
        self.set_card(c, state - 1);
    }

    pub fn set_register(&mut self, player: usize, r: usize, object: usize) {
        self.set(self.layout.register(player, r), object);
    }

    pub fn set_link(&mut self, object: usize, i: usize, target: usize) {
        self.set(self.layout.granule(object) + 2 + i, target);
    }

    pub fn append(&mut self, packet: usize, object: usize) {
        let count = self.image().count(packet);
        assert!(count < W::ENTRIES);
        self.set(self.layout.packet(packet) + 2 + count, object);
        self.set(self.layout.packet(packet), count + 1);
    }

    pub fn pop(&mut self, packet: usize) -> usize {
        let last = self.image().count(packet) - 1;
        let object = self.image().entry_words(packet)[last].number();
        self.set(self.layout.packet(packet) + 2 + last, 0);
        self.set(self.layout.packet(packet), last);
        object
    }

    pub fn set_tracer(&mut self, t: usize, tracer: Tracer) {
        let at = self.layout.tracer(t);
        let (object, link) = tracer.hand.unwrap_or((0, 0));
        let (card, granule) = tracer.card.map_or((0, 0), |(c, g)| (c + 1, g));
        self.set(at, tracer.input.map_or(0, |n| n + 1));
        self.set(at + 1, tracer.output.map_or(0, |n| n + 1));
        self.set(at + 2, object);
        self.set(at + 3, link);
        self.set(at + 4, card);
        self.set(at + 5, granule);
    }

    pub fn set_owed(&mut self, player: usize, card: Option<usize>) {
        self.set(self.layout.player(player), card.map_or(0, |c| c + 1));
    }

    pub fn set_scanned(&mut self, player: usize, scanned: bool) {
        self.set(self.layout.player(player) + 1, usize::from(scanned));
    }

    pub fn set_running(&mut self, running: bool) {
        self.set(self.layout.general(), usize::from(running));
    }

    pub fn set_first_run(&mut self, g: usize) {
        self.set(self.layout.general() + 1, g);
    }

    pub fn set_run(&mut self, g: usize, length: usize, next: usize) {
        self.set(self.layout.granule(g), length);
        self.set(self.layout.granule(g) + 1, next);
    }

    /// Lays an object's two first words and its start bit on granules that are zero.
    pub fn set_object(&mut self, g: usize, size: usize, links: usize) {
        self.set_start(g, true);
        self.set(self.layout.granule(g), size);
        self.set(self.layout.granule(g) + 1, links);
    }

    pub fn zero(&mut self, from: usize, to: usize) {
        self.words[from..to].fill(W::default());
    }
}
