//! Records, the narrow store's of 8 bytes among them, and the refusals that a record alone decides.

use crate::width::Width;

pub const RECORD_BYTES: usize = 8;

pub const NEW: u8 = 1;
pub const LOAD: u8 = 2;
pub const STORE: u8 = 3;
pub const BARRIER: u8 = 4;
pub const HAND: u8 = 5;
pub const DROP: u8 = 6;
pub const READ: u8 = 7;
pub const WRITE: u8 = 8;
pub const BEGIN: u8 = 9;
pub const SCAN: u8 = 10;
pub const TRACE: u8 = 11;
pub const CLEAN: u8 = 12;
pub const FINISH: u8 = 13;
pub const DUE: u8 = 14;
pub const UNDIRTY: u8 = 15;

/// A record whose fields are words of the store.
#[derive(Clone, Copy, Debug, PartialEq, Eq)]
pub struct RecordOf<W> {
    pub kind: u8,
    /// The second byte: the player of kinds 1 to 8, the tracer of 10 to 12.
    pub who: u8,
    /// The zero bytes of a wide record, "two zero bytes" behind the second. A narrow record has none.
    pub zeros: [u8; 2],
    pub a: W,
    pub b: W,
    pub c: W,
}

/// A record of the narrow store.
pub type Record = RecordOf<u16>;

/// The records of step bytes whose number is a multiple of 8.
pub fn records(steps: &[u8]) -> impl Iterator<Item = Record> + '_ {
    records_of(steps)
}

/// The records of step bytes that have no part record.
pub fn records_of<W: Width>(steps: &[u8]) -> impl Iterator<Item = RecordOf<W>> + '_ {
    steps.chunks_exact(W::RECORD_BYTES).map(W::record)
}

/// "kind, player or tracer, then a, b, c, 16 bits each, low byte first"
pub(crate) fn of_bytes(bytes: &[u8]) -> Record {
    let word = |i: usize| u16::from_le_bytes([bytes[i], bytes[i + 1]]);
    Record { kind: bytes[0], who: bytes[1], zeros: [0; 2], a: word(2), b: word(4), c: word(6) }
}

pub(crate) fn bytes_of(record: Record) -> Vec<u8> {
    let [a, b, c] = [record.a, record.b, record.c].map(u16::to_le_bytes);
    [[record.kind, record.who], a, b, c].concat()
}

impl<W: Width> RecordOf<W> {
    pub fn new(kind: u8, who: u8, a: W, b: W, c: W) -> RecordOf<W> {
        RecordOf { kind, who, zeros: [0; 2], a, b, c }
    }

    /// The same from numbers that are not words yet.
    pub fn of(kind: u8, who: usize, a: usize, b: usize, c: usize) -> RecordOf<W> {
        RecordOf::new(kind, who as u8, W::of(a), W::of(b), W::of(c))
    }

    pub fn from_bytes(bytes: &[u8]) -> RecordOf<W> {
        W::record(bytes)
    }

    pub fn to_bytes(self) -> Vec<u8> {
        W::bytes(self)
    }

    pub fn who(self) -> usize {
        usize::from(self.who)
    }

    pub fn a(self) -> usize {
        self.a.number()
    }

    pub fn b(self) -> usize {
        self.b.number()
    }

    pub fn c(self) -> usize {
        self.c.number()
    }

    /// Number 3: "kind not 1 to 14, or an unnamed field not 0"; "kind 15 leaves number 3"; "3 also if a zero byte isn't 0".
    pub fn is_unknown(self) -> bool {
        let named = match self.kind {
            NEW | LOAD | STORE | HAND | WRITE => [true; 4],
            READ => [true, true, true, false],
            DROP | SCAN => [true, true, false, false],
            BARRIER | TRACE | CLEAN => [true, false, false, false],
            BEGIN | FINISH => [false; 4],
            DUE | UNDIRTY => [false, true, false, false],
            _ => return true,
        };
        let fields = [self.who(), self.a(), self.b(), self.c()];
        self.zeros != [0; 2] || fields.iter().zip(named).any(|(&field, named)| !named && field != 0)
    }

    /// Number 4: "player or register above 15, tracer above 7", and "if the card doesn't exist", of a store with so many cards. No
    /// link, level word or size counts.
    pub fn is_off_the_desk(self, cards: usize) -> bool {
        let who_beyond = match self.kind {
            NEW..=WRITE => self.who() >= W::PLAYERS,
            SCAN..=CLEAN => self.who() >= W::TRACERS,
            _ => false,
        };
        let (players, registers): (&[usize], &[usize]) = match self.kind {
            NEW | DROP | READ | WRITE => (&[], &[self.a()]),
            LOAD => (&[], &[self.a(), self.b()]),
            STORE => (&[], &[self.a(), self.c()]),
            HAND => (&[self.b()], &[self.a(), self.c()]),
            SCAN => (&[self.a()], &[]),
            _ => (&[], &[]),
        };
        let card_beyond = self.kind == UNDIRTY && self.a() >= cards;
        who_beyond
            || card_beyond
            || players.iter().any(|&p| p >= W::PLAYERS)
            || registers.iter().any(|&r| r >= W::REGISTERS)
    }

    /// The players who must owe nothing (number 5): the acting one, and in hand the receiving one.
    pub fn players_to_owe_nothing(self) -> Vec<usize> {
        match self.kind {
            HAND => vec![self.who(), self.b()],
            NEW..=STORE | DROP..=WRITE => vec![self.who()],
            _ => vec![],
        }
    }

    /// The register that must hold an object (number 6).
    pub fn object_register(self) -> Option<usize> {
        match self.kind {
            LOAD => Some(self.b()),
            STORE | READ | WRITE => Some(self.a()),
            _ => None,
        }
    }

    /// Number 7, given the numbers of links and of level words of the object.
    pub fn is_past_the_end(self, links: usize, levels: usize) -> bool {
        match self.kind {
            LOAD => self.c() >= links,
            STORE => self.b() >= links,
            READ | WRITE => self.b() >= levels,
            _ => false,
        }
    }

    /// Number 8: "new with b = 0, b over 1,024, or c over 4 × b − 2".
    pub fn is_bad_size(self) -> bool {
        let size_fits = (1..=W::LARGEST_OBJECT).contains(&self.b());
        self.kind == NEW && !(size_fits && self.c() <= W::GRANULE_WORDS * self.b() - 2)
    }
}
