//! What is printed after `ok`.

use std::fmt::Display;
use std::io::Write;

use crate::engine::cp::assignments::ConstraintProgrammingTrailEntry;
use crate::engine::cp::reason::ReasonRef;
use crate::engine::predicates::predicate::Predicate;
use crate::engine::predicates::predicate::PredicateType;

#[derive(Default)]
pub(crate) struct Answer {
    bytes: Vec<u8>,
}

impl Answer {
    pub(crate) fn clear(&mut self) {
        self.bytes.clear();
    }

    pub(crate) fn bytes(&self) -> &[u8] {
        &self.bytes
    }

    pub(crate) fn field(&mut self, field: impl Display) {
        write!(self.bytes, "\t{field}").expect("memory takes all");
    }

    pub(crate) fn optional(&mut self, field: Option<impl Display>) {
        match field {
            Some(field) => self.field(field),
            None => self.field("none"),
        }
    }

    pub(crate) fn truth(&mut self, truth: Option<bool>) {
        match truth {
            Some(truth) => self.field(truth),
            None => self.field("open"),
        }
    }

    pub(crate) fn kind(&mut self, kind: PredicateType) {
        self.field(match kind {
            PredicateType::LowerBound => "ge",
            PredicateType::UpperBound => "le",
            PredicateType::NotEqual => "ne",
            PredicateType::Equal => "eq",
        });
    }

    pub(crate) fn predicate(&mut self, predicate: Predicate) {
        self.field(predicate.get_domain().id());
        self.kind(predicate.get_predicate_type());
        self.field(predicate.get_right_hand_side());
    }

    pub(crate) fn entry(&mut self, entry: &ConstraintProgrammingTrailEntry) {
        self.predicate(entry.predicate);
        self.field(entry.old_lower_bound);
        self.field(entry.old_upper_bound);
        match entry.reason {
            Some(ReasonRef(reason)) => self.field(reason),
            None => self.field("-"),
        }
    }

    pub(crate) fn listing(&mut self, things: &[impl Display]) {
        self.field(things.len());
        for thing in things {
            self.field(thing);
        }
    }

    /// Begins a further line below the answer's own.
    pub(crate) fn line(&mut self, first: &str) {
        self.bytes.push(b'\n');
        self.bytes.extend_from_slice(first.as_bytes());
    }
}
