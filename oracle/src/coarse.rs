//! The coarse stage's own files, unchanged: 128 pixels a bucket.

include!(concat!(env!("OUT_DIR"), "/coarse.rs"));

pub(crate) mod probe;
pub(crate) mod stage;

pub(crate) use bucketer::CommandBucketer;
