//! All tests, in one program: what is generic over the width is compiled once.

mod common;

mod both_rules;
mod cases;
mod damage;
mod draws;
mod due;
mod forms;
mod kept_count;
mod lists;
mod map;
mod overflow;
mod packets;
mod placing;
mod report;
mod undirty;
mod vectors;
mod wide;
mod wide_lists;
mod wide_wrong;
mod work;
mod work_wrong;
mod wrong;
