//! The wide store, of 32-bit words: document 02, (ix). What it has of its own, and the names of what it shares with the narrow one.

pub mod cases;
pub mod layout;
pub mod record;
pub mod twins;

pub use layout::{cards_of_length, length, Layout};

pub type Image<'a> = crate::image::ImageOf<'a, u32>;
pub type Store<'a> = crate::image::StoreOf<'a, u32>;
pub type Record = crate::record::RecordOf<u32>;
