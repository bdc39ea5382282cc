//! The plain store: objects, registers and who owes a barrier. No cards, no marks, no lack of room, and no object goes. It shares
//! no code with the real steps: it has its own reading of a record (`record`) and of the first image (`first`).

use std::collections::BTreeMap;

pub mod first;
pub mod form;
pub mod reading;
pub mod record;

use first::{First, FirstObject};
use form::{Fields, Form};
use record::{read, Act, Place};

/// "An object of the image is known by its granule there, any other by its new's place in the list."
#[derive(Clone, Copy, Debug, PartialEq, Eq, PartialOrd, Ord, Hash)]
pub enum Name {
    Granule(usize),
    Place(usize),
}

/// An object, or nil.
pub type Reference = Option<Name>;

#[derive(Clone, Copy, Debug, PartialEq, Eq)]
pub enum Value {
    Object(Reference),
    Number(u64),
}

#[derive(Clone, Debug, PartialEq, Eq)]
struct PlainObject {
    links: Vec<Reference>,
    levels: Vec<u64>,
}

#[derive(Clone, Debug, PartialEq, Eq)]
pub struct Plain {
    objects: BTreeMap<Name, PlainObject>,
    /// 16 players with 16 registers each.
    registers: [[Reference; 16]; 16],
    owing: [bool; 16],
}

fn named(word: u64) -> Reference {
    (word != 0).then_some(Name::Granule(word as usize))
}

impl Plain {
    /// The plain store that starts as an undamaged image.
    pub fn of<W: Form>(words: &[W]) -> Plain {
        let first = First::of(words);
        let plain_object = |object: &FirstObject<W>| PlainObject {
            links: object.links.iter().map(|&word| named(word.into())).collect(),
            levels: object.levels.iter().map(|&word| word.into()).collect(),
        };
        Plain {
            objects: first.objects().map(|o| (Name::Granule(o.granule), plain_object(&o))).collect(),
            registers: std::array::from_fn(|p| std::array::from_fn(|r| named(first.register(p, r) as u64))),
            owing: std::array::from_fn(|p| first.owes(p)),
        }
    }

    /// A player's step at its place in the list: number and value.
    pub fn step(&mut self, fields: Fields, place: usize) -> (u16, Value) {
        match self.admitted(fields) {
            Ok((player, act)) => (0, self.act(player, act, place)),
            Err(number) => (number, Value::Number(0)),
        }
    }

    /// The granules that a record needs, if it is a new that no number but 9 could refuse.
    pub fn room_wanted(&self, fields: Fields) -> Option<usize> {
        match self.admitted(fields) {
            Ok((_, Act::New { granules, .. })) => Some(granules),
            _ => None,
        }
    }

    /// "A step that numbers 3 to 8 or 11 refuse, read on this state, gets the lowest".
    fn admitted(&self, fields: Fields) -> Result<(usize, Act), u16> {
        let (player, act) = read(fields)?;
        if self.is_owing(player, act) {
            return Err(5);
        }
        if let Some((register, place)) = act.looks_into() {
            let name = self.registers[player][register].ok_or(6u16)?;
            if !self.objects[&name].has(place) {
                return Err(7);
            }
        }
        if act.is_bad_size() {
            return Err(8);
        }
        if act == Act::Barrier && !self.owing[player] {
            return Err(11);
        }
        Ok((player, act))
    }

    /// "a player owing a barrier in kinds 1 to 3 and 5 to 8, or receiving in 5"
    fn is_owing(&self, player: usize, act: Act) -> bool {
        match act {
            Act::Barrier => false,
            Act::Hand { receiver, .. } => self.owing[player] || self.owing[receiver],
            _ => self.owing[player],
        }
    }

    fn act(&mut self, player: usize, act: Act, place: usize) -> Value {
        match act {
            Act::New { register, granules, links } => {
                let name = self.make(granules, links, place);
                self.registers[player][register] = Some(name);
                return Value::Object(Some(name));
            }
            Act::Load { into, from, link } => {
                let target = self.object_in(player, from).links[link];
                self.registers[player][into] = target;
                return Value::Object(target);
            }
            Act::Store { into, link, what } => {
                let target = self.registers[player][what];
                self.object_in(player, into).links[link] = target;
                self.owing[player] = true;
            }
            Act::Barrier => self.owing[player] = false,
            Act::Hand { own, receiver, register } => self.registers[receiver][register] = self.registers[player][own],
            Act::Drop { register } => self.registers[player][register] = None,
            Act::Read { from, level } => return Value::Number(self.object_in(player, from).levels[level]),
            Act::Write { into, level, word } => self.object_in(player, into).levels[level] = word,
        }
        Value::Number(0)
    }

    fn object_in(&mut self, player: usize, register: usize) -> &mut PlainObject {
        let name = self.registers[player][register].expect("the register holds an object");
        self.objects.get_mut(&name).expect("no object goes")
    }

    /// An object of four words a granule: two for its size and its number of links, the links, and level words in the rest.
    fn make(&mut self, granules: usize, links: usize, place: usize) -> Name {
        let object = PlainObject { links: vec![None; links], levels: vec![0; 4 * granules - 2 - links] };
        let name = Name::Place(place);
        self.objects.insert(name, object);
        name
    }
}

impl PlainObject {
    /// "Links and level words count from 0."
    fn has(&self, place: Place) -> bool {
        match place {
            Place::Link(link) => link < self.links.len(),
            Place::Level(level) => level < self.levels.len(),
        }
    }
}
