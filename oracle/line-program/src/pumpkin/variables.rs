//! Stand-ins for Pumpkin's variables, of which the store needs only its own kind.

use std::fmt;

use crate::containers::StorageKey;
use crate::engine::Assignments;
use crate::engine::predicates::predicate::Predicate;
use crate::engine::predicates::predicate::PredicateType;
use crate::predicates::PredicateConstructor;

#[derive(Clone, Copy, Debug, Hash, PartialEq, Eq, PartialOrd, Ord)]
pub struct DomainId {
    id: u32,
}

impl DomainId {
    pub(crate) fn new(id: u32) -> Self {
        DomainId { id }
    }

    pub(crate) fn id(&self) -> u32 {
        self.id
    }
}

impl fmt::Display for DomainId {
    fn fmt(&self, formatter: &mut fmt::Formatter<'_>) -> fmt::Result {
        write!(formatter, "x{}", self.id)
    }
}

impl StorageKey for DomainId {
    fn index(&self) -> usize {
        self.id as usize
    }

    fn create_from_index(index: usize) -> Self {
        DomainId::new(index as u32)
    }
}

impl PredicateConstructor for DomainId {
    type Value = i32;

    fn lower_bound_predicate(&self, bound: i32) -> Predicate {
        Predicate::new(*self, PredicateType::LowerBound, bound)
    }

    fn upper_bound_predicate(&self, bound: i32) -> Predicate {
        Predicate::new(*self, PredicateType::UpperBound, bound)
    }

    fn equality_predicate(&self, bound: i32) -> Predicate {
        Predicate::new(*self, PredicateType::Equal, bound)
    }

    fn disequality_predicate(&self, bound: i32) -> Predicate {
        Predicate::new(*self, PredicateType::NotEqual, bound)
    }
}

pub(crate) trait IntegerVariable {
    fn lower_bound(&self, assignments: &Assignments) -> i32;

    fn upper_bound(&self, assignments: &Assignments) -> i32;

    fn lower_bound_at_trail_position(&self, assignments: &Assignments, position: usize) -> i32;

    fn upper_bound_at_trail_position(&self, assignments: &Assignments, position: usize) -> i32;
}

impl IntegerVariable for DomainId {
    fn lower_bound(&self, assignments: &Assignments) -> i32 {
        assignments.get_lower_bound(*self)
    }

    fn upper_bound(&self, assignments: &Assignments) -> i32 {
        assignments.get_upper_bound(*self)
    }

    fn lower_bound_at_trail_position(&self, assignments: &Assignments, position: usize) -> i32 {
        assignments.get_lower_bound_at_trail_position(*self, position)
    }

    fn upper_bound_at_trail_position(&self, assignments: &Assignments, position: usize) -> i32 {
        assignments.get_upper_bound_at_trail_position(*self, position)
    }
}

/// A call that uses this is left out of the port, so nobody asks it for a variable.
#[derive(Clone, Copy, Debug)]
pub(crate) struct DomainGeneratorIterator {
    next: u32,
    end: u32,
}

impl DomainGeneratorIterator {
    pub(crate) fn new(start: u32, end: u32) -> Self {
        DomainGeneratorIterator { next: start, end }
    }
}

impl Iterator for DomainGeneratorIterator {
    type Item = DomainId;

    fn next(&mut self) -> Option<DomainId> {
        (self.next < self.end).then(|| {
            self.next += 1;
            DomainId::new(self.next - 1)
        })
    }
}
