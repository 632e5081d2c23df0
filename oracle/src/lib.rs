//! The original Rust, compiled unchanged and at other widths of a depth bucket, what it answers, and the recordings and calls that it is asked about.

extern crate alloc;

pub mod calls;
mod coarse;
mod coarse_256;
mod coarse_64;
pub mod colours;
mod compacted;
pub mod composited;
pub mod edited;
pub mod editions;
pub mod figures;
pub mod file;
mod filter;
pub mod generate;
mod kurbo {
    pub(crate) use vello_common::kurbo::*;
}
pub mod leaves;
mod limits;
pub mod lists;
mod minima;
pub mod original;
pub mod painting;
mod panels;
mod peniko {
    pub(crate) use vello_common::peniko::*;
}
pub mod plain;
pub mod print;
pub mod questions;
pub mod random;
mod rules;
mod scene;
mod screen;
pub mod sizes;
pub mod steps;
pub mod viewport;
pub mod walk;
pub mod why;
pub mod width;

include!(concat!(env!("OUT_DIR"), "/root.rs"));
