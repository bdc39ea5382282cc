//! A second implementation of the show store and its collector, written from documents 01 and 02
//! alone, and the checks of whole lists of steps that any implementation of `batch` can be put to.

pub mod both_rules;
pub mod bounded;
pub mod cases;
pub mod demand;
pub mod dragging;
pub mod events;
pub mod finish;
pub mod generate;
pub mod image;
pub mod judge;
pub mod layout;
pub mod made;
pub mod map;
pub mod overflow;
pub mod pinned;
pub mod placed;
pub mod plain;
pub mod program;
pub mod random;
pub mod record;
pub mod report;
pub mod reports;
pub mod spoils;
pub mod steps;
mod tracing;
pub mod vectors;
pub mod wide;
pub mod width;
pub mod work;

pub use demand::{players_and_sweeps, whole_list, Counts};
pub use finish::finish;
pub use judge::{cover, judge, undamaged_but_cover};
pub use layout::{cards_of_length, length};
pub use map::{map_bytes, service_map};
pub use plain::{Plain, Value};
pub use record::Record;
pub use report::{judge_report, scratch_words};
pub use steps::{batch, batch_by, fresh, Placing};
