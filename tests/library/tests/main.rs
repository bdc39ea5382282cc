//! All tests, in one program: what they share is compiled once.

mod batch;
mod dues;
mod judge;
mod map;
mod placing;
mod report;
mod steprun;
mod wide;
mod work;
