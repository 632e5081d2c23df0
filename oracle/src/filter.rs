//! Which filter layers have a pixmap: the Rust's own file, unchanged.

include!(concat!(env!("OUT_DIR"), "/filter.rs"));
