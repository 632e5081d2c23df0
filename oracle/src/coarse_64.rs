//! The coarse stage's own files with the one constant changed: 64 pixels a bucket.

include!(concat!(env!("OUT_DIR"), "/coarse_64.rs"));

// The same two files stand beside the original at each width.
#[allow(clippy::duplicate_mod)]
#[path = "coarse/probe.rs"]
mod probe;
#[allow(clippy::duplicate_mod)]
#[path = "coarse/stage.rs"]
pub(crate) mod stage;

use bucketer::CommandBucketer;
