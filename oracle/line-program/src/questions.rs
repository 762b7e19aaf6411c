//! The calls that ask. They are grouped by what they ask about; each has the one refusal 1 unless
//! it says otherwise.

use crate::answer::Answer;
use crate::engine::Assignments;
use crate::engine::predicates::predicate::Predicate;
use crate::fields::Position;
use crate::fields::Statement;
use crate::fields::Variable;
use crate::refusal::Refusal;
use crate::stop::attempt;
use crate::store::Outcome;
use crate::store::Store;
use crate::variables::DomainId;

pub(crate) type AboutStore = fn(&Assignments, &mut Answer);
pub(crate) type AboutVariable = fn(&Assignments, DomainId, &mut Answer);
pub(crate) type AboutVariableAt = fn(&Assignments, DomainId, usize, &mut Answer);
pub(crate) type AboutPredicate = fn(&Assignments, Predicate, &mut Answer);

pub(crate) fn about_store(name: &[u8]) -> Option<AboutStore> {
    Some(match name {
        b"get_checkpoint" => |rust, answer| answer.field(rust.get_checkpoint()),
        b"num_domains" => |rust, answer| answer.field(rust.num_domains()),
        b"num_trail_entries" => |rust, answer| answer.field(rust.num_trail_entries()),
        _ => return None,
    })
}

pub(crate) fn about_variable(name: &[u8]) -> Option<AboutVariable> {
    Some(match name {
        b"get_lower_bound" => |rust, id, answer| answer.field(rust.get_lower_bound(id)),
        b"get_upper_bound" => |rust, id, answer| answer.field(rust.get_upper_bound(id)),
        b"get_initial_lower_bound" => {
            |rust, id, answer| answer.field(rust.get_initial_lower_bound(id))
        }
        b"get_initial_upper_bound" => {
            |rust, id, answer| answer.field(rust.get_initial_upper_bound(id))
        }
        b"is_domain_assigned" => |rust, id, answer| answer.field(rust.is_domain_assigned(&id)),
        b"get_assigned_value" => |rust, id, answer| answer.optional(rust.get_assigned_value(&id)),
        _ => return None,
    })
}

pub(crate) fn about_variable_at(name: &[u8]) -> Option<AboutVariableAt> {
    Some(match name {
        b"get_lower_bound_at_trail_position" => |rust, id, position, answer| {
            answer.field(rust.get_lower_bound_at_trail_position(id, position));
        },
        b"get_upper_bound_at_trail_position" => |rust, id, position, answer| {
            answer.field(rust.get_upper_bound_at_trail_position(id, position));
        },
        b"is_domain_assigned_at_trail_position" => |rust, id, position, answer| {
            answer.field(rust.is_domain_assigned_at_trail_position(&id, position));
        },
        b"get_assigned_value_at_trail_position" => assigned_value_at,
        _ => return None,
    })
}

/// The departure: the Rust gives today's lower bound here, the rules ask for the one at p.
fn assigned_value_at(rust: &Assignments, id: DomainId, position: usize, answer: &mut Answer) {
    let value = rust
        .is_domain_assigned_at_trail_position(&id, position)
        .then(|| rust.get_lower_bound_at_trail_position(id, position));
    answer.optional(value);
}

pub(crate) fn about_predicate(name: &[u8]) -> Option<AboutPredicate> {
    Some(match name {
        b"is_predicate_satisfied" => {
            |rust, predicate, answer| answer.field(rust.is_predicate_satisfied(predicate))
        }
        b"is_predicate_falsified" => {
            |rust, predicate, answer| answer.field(rust.is_predicate_falsified(predicate))
        }
        b"get_trail_position" => {
            |rust, predicate, answer| answer.optional(rust.get_trail_position(&predicate))
        }
        b"get_checkpoint_for_predicate" => {
            |rust, predicate, answer| answer.optional(rust.get_checkpoint_for_predicate(&predicate))
        }
        b"is_initial_bound" => {
            |rust, predicate, answer| answer.field(rust.is_initial_bound(predicate))
        }
        b"is_decision_predicate" => {
            |rust, predicate, answer| answer.field(rust.is_decision_predicate(&predicate))
        }
        b"get_reason_for_predicate_brute_force" => reason_for_predicate,
        _ => return None,
    })
}

/// Refusal 13 is the Rust's own stop, where it finds no reason.
fn reason_for_predicate(rust: &Assignments, predicate: Predicate, answer: &mut Answer) {
    #[allow(
        deprecated,
        reason = "Pumpkin advises against it, the rules take it over"
    )]
    let reason = rust.get_reason_for_predicate_brute_force(predicate);
    answer.field(reason.0);
}

pub(crate) fn evaluate(store: &Store, statement: Statement, answer: &mut Answer) -> Outcome {
    let predicate = store.predicate(statement)?;
    answer.truth(attempt(|| store.rust.evaluate_predicate(predicate))?);
    Ok(())
}

pub(crate) fn evaluate_at(
    store: &Store,
    (Position(position), statement): (Position, Statement),
    answer: &mut Answer,
) -> Outcome {
    let predicate = store.predicate(statement)?;
    let truth = || {
        store
            .rust
            .evaluate_predicate_at_trail_position(predicate, position)
    };
    answer.truth(attempt(truth)?);
    Ok(())
}

pub(crate) fn show(store: &Store, variable: Variable, answer: &mut Answer) -> Outcome {
    let id = store.variable(variable)?;
    let lower = attempt(|| store.rust.get_lower_bound(id))?;
    let upper = attempt(|| store.rust.get_upper_bound(id))?;
    answer.field(lower);
    answer.field(upper);
    answer.field((i64::from(upper) - i64::from(lower) + 1).max(0));
    Ok(())
}

pub(crate) fn count(store: &Store, (): (), answer: &mut Answer) -> Outcome {
    answer.field(store.rust.get_pruned_value_count());
    Ok(())
}

pub(crate) fn is_value_in_domain(
    store: &Store,
    (variable, value): (Variable, i32),
    answer: &mut Answer,
) -> Outcome {
    let id = store.variable(variable)?;
    answer.field(attempt(|| store.rust.is_value_in_domain(id, value))?);
    Ok(())
}

pub(crate) fn is_value_in_domain_at(
    store: &Store,
    (Position(position), variable, value): (Position, Variable, i32),
    answer: &mut Answer,
) -> Outcome {
    let id = store.variable(variable)?;
    let contained = || {
        store
            .rust
            .is_value_in_domain_at_trail_position(id, value, position)
    };
    answer.field(attempt(contained)?);
    Ok(())
}

pub(crate) fn get_trail_entry(
    store: &Store,
    Position(index): Position,
    answer: &mut Answer,
) -> Outcome {
    Refusal::NoSuchEntry.when(index >= store.rust.num_trail_entries())?;
    answer.entry(&store.rust.get_trail_entry(index));
    Ok(())
}

pub(crate) fn find_last_decision(store: &Store, (): (), answer: &mut Answer) -> Outcome {
    let checkpoint = store.rust.get_checkpoint();
    let first = store.rust.trail.values_at_checkpoint(checkpoint).first();
    let decided = first.is_some_and(|entry| entry.reason.is_none());
    Refusal::NoDecision.when(checkpoint > 0 && !decided)?;
    match attempt(|| store.rust.find_last_decision())? {
        Some(predicate) => answer.predicate(predicate),
        None => answer.field("none"),
    }
    Ok(())
}
