//! The part of Pumpkin's engine that the store is, and stand-ins for the parts that it names.

pub(crate) mod cp;
pub(crate) mod notifications;
pub(crate) mod predicates;

pub(crate) use cp::assignments::Assignments;

pub(crate) use crate::variables;
