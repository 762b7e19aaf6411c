//! The Rust's predicates, unchanged.

pub(crate) mod predicate {
    include!(concat!(env!("OUT_DIR"), "/predicate.rs"));
}

pub(crate) mod predicate_constructor {
    include!(concat!(env!("OUT_DIR"), "/predicate_constructor.rs"));
}
