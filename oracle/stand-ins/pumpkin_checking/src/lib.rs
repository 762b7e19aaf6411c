//! A stand-in for the crate `pumpkin_checking`: the shape of an atomic constraint, which the
//! predicate takes on and the store never uses.

use std::fmt::Debug;
use std::hash::Hash;

#[derive(Clone, Copy, Debug, Hash, PartialEq, Eq)]
pub enum Comparison {
    GreaterEqual,
    LessEqual,
    Equal,
    NotEqual,
}

pub trait AtomicConstraint: Sized + Debug {
    type Identifier: Hash + Eq;

    fn identifier(&self) -> Self::Identifier;

    fn comparison(&self) -> Comparison;

    fn value(&self) -> i32;

    fn negate(&self) -> Self;
}
