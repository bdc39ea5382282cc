//! How the real answers are read on the plain store: which object a granule number stands for.

use std::collections::{BTreeMap, BTreeSet};

use super::first::First;
use super::form::Form;
use super::record::{LOAD, NEW};
use super::{Name, Reference, Value};

/// The real answers of one list, read in its order.
pub struct Reading {
    /// The granules at which objects start in the first image.
    first: BTreeSet<usize>,
    /// By value, the place of the last accepted new that had it.
    last_new: BTreeMap<usize, usize>,
}

impl Reading {
    pub fn of<W: Form>(first_image: &[W]) -> Reading {
        let first = First::of(first_image).objects().map(|object| object.granule).collect();
        Reading { first, last_new: BTreeMap::new() }
    }

    /// The value of a player's record of that kind at its place in the list: "the value g of an accepted new or load is compared as the object [..].
    /// Other values, and all numbers, must be equal as they are."
    pub fn value(&mut self, kind: u8, place: usize, number: usize, value: usize) -> Result<Value, String> {
        if (kind, number) == (NEW, 0) {
            self.last_new.insert(value, place);
        }
        match (kind, number) {
            (NEW | LOAD, 0) => self.object(value).map(Value::Object),
            _ => Ok(Value::Number(value as u64)),
        }
    }

    /// "the object of the last accepted new with value g, this one included, or, with none, the one starting at g in the first image;
    /// 0 as nil"
    fn object(&self, g: usize) -> Result<Reference, String> {
        match self.last_new.get(&g) {
            _ if g == 0 => Ok(None),
            Some(&place) => Ok(Some(Name::Place(place))),
            None if self.first.contains(&g) => Ok(Some(Name::Granule(g))),
            None => Err(format!("no object was ever at {g}")),
        }
    }
}
