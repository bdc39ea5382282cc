//! A player's record as the plain store reads it, from the fields that `form` reads from the bytes, and not by `crate::record`, which the real steps
//! use.

use super::form::Fields;

pub const NEW: u8 = 1;
pub const LOAD: u8 = 2;

/// What a record asks of its player, the fields under the names that document 01's list of steps gives them by their use.
#[derive(Clone, Copy, Debug, PartialEq, Eq)]
pub enum Act {
    New { register: usize, granules: usize, links: usize },
    Load { into: usize, from: usize, link: usize },
    Store { into: usize, link: usize, what: usize },
    Barrier,
    Hand { own: usize, receiver: usize, register: usize },
    Drop { register: usize },
    Read { from: usize, level: usize },
    Write { into: usize, level: usize, word: u64 },
}

/// A place that an object must have.
#[derive(Clone, Copy, Debug, PartialEq, Eq)]
pub enum Place {
    Link(usize),
    Level(usize),
}

/// "kinds 1 to 8"
pub fn is_of_a_player(bytes: &[u8]) -> bool {
    matches!(bytes[0], 1..=8)
}

/// The player and the act of a player's record, or the number that refuses it: "Fields not named are 0", and "a zero byte", else 3; "player or
/// register above 15", 4.
pub fn read(fields: Fields) -> Result<(usize, Act), u16> {
    let player = fields.who;
    let act = named(fields).filter(|_| !fields.is_stray).ok_or(3u16)?;
    let on_the_desk = player <= 15 && act.registers().iter().flatten().all(|&r| r <= 15);
    match act {
        Act::Hand { receiver, .. } if receiver > 15 => Err(4),
        _ if on_the_desk => Ok((player, act)),
        _ => Err(4),
    }
}

/// The act of kinds 1 to 8, if every field that its line does not name is 0.
fn named(fields: Fields) -> Option<Act> {
    match (fields.kind, fields.a as usize, fields.b as usize, fields.c as usize) {
        (1, register, granules, links) => Some(Act::New { register, granules, links }),
        (2, into, from, link) => Some(Act::Load { into, from, link }),
        (3, into, link, what) => Some(Act::Store { into, link, what }),
        (4, 0, 0, 0) => Some(Act::Barrier),
        (5, own, receiver, register) => Some(Act::Hand { own, receiver, register }),
        (6, register, 0, 0) => Some(Act::Drop { register }),
        (7, from, level, 0) => Some(Act::Read { from, level }),
        (8, into, level, _) => Some(Act::Write { into, level, word: fields.c }),
        _ => None,
    }
}

impl Act {
    /// The registers that it names, its player's own and the receiver's.
    fn registers(self) -> [Option<usize>; 2] {
        match self {
            Act::Load { into, from, .. } => [Some(into), Some(from)],
            Act::Store { into, what, .. } => [Some(into), Some(what)],
            Act::Hand { own, register, .. } => [Some(own), Some(register)],
            Act::New { register, .. } | Act::Drop { register } => [Some(register), None],
            Act::Read { from: object, .. } | Act::Write { into: object, .. } => [Some(object), None],
            Act::Barrier => [None, None],
        }
    }

    /// The register whose object it looks into, and the link or level word that this object must have (numbers 6 and 7).
    pub fn looks_into(self) -> Option<(usize, Place)> {
        match self {
            Act::Load { from, link, .. } => Some((from, Place::Link(link))),
            Act::Store { into, link, .. } => Some((into, Place::Link(link))),
            Act::Read { from, level } => Some((from, Place::Level(level))),
            Act::Write { into, level, .. } => Some((into, Place::Level(level))),
            _ => None,
        }
    }

    /// "new with b = 0, b over 1,024, or c over 4 × b − 2"
    pub fn is_bad_size(self) -> bool {
        match self {
            Act::New { granules, links, .. } => granules == 0 || granules > 1024 || links > 4 * granules - 2,
            _ => false,
        }
    }
}
