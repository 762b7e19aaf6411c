//! The Rust's store, as the calls of the rules reach it.

use crate::engine::Assignments;
use crate::engine::predicates::predicate::Predicate;
use crate::fields::Statement;
use crate::fields::Variable;
use crate::refusal::Refusal;
use crate::stop::Unanswered;
use crate::stop::attempt;
use crate::variables::DomainId;

/// In the checked profile the Rust's own assertions and overflow checks are on.
pub(crate) const CHECKED: bool = cfg!(debug_assertions);

pub(crate) type Outcome = Result<(), Unanswered>;

#[derive(Default)]
pub(crate) struct Store {
    pub(crate) rust: Assignments,
}

impl Store {
    /// Tested before anything is packed: a packed predicate has two bits less for the number.
    pub(crate) fn variable(&self, Variable(number): Variable) -> Result<DomainId, Refusal> {
        Refusal::NoVariable.when(number >= self.rust.num_domains())?;
        Ok(DomainId::new(number))
    }

    pub(crate) fn predicate(&self, statement: Statement) -> Result<Predicate, Refusal> {
        let id = self.variable(statement.variable)?;
        Ok(Predicate::new(id, statement.kind, statement.value))
    }

    /// Makes a call that changes the store. In the checked profile it is made on a clone, so that
    /// a stop leaves the store as it was.
    pub(crate) fn change<T>(
        &mut self,
        call: impl FnOnce(&mut Assignments) -> T,
    ) -> Result<T, Unanswered> {
        if !CHECKED {
            return attempt(|| call(&mut self.rust));
        }
        let mut clone = self.rust.clone();
        let result = attempt(|| call(&mut clone))?;
        self.rust = clone;
        Ok(result)
    }
}
