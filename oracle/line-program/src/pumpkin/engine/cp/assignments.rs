//! The Rust's store, unchanged, and beside it what our own printing has to see of its private
//! fields.

mod seen;

pub(crate) use seen::BoundSeen;

include!(concat!(env!("OUT_DIR"), "/assignments.rs"));
