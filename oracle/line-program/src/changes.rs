//! The calls that change the store, each with its refusals in their order.

use crate::answer::Answer;
use crate::engine::Assignments;
use crate::engine::cp::assignments::EmptyDomain;
use crate::engine::cp::reason::ReasonRef;
use crate::engine::notifications::NotificationEngine;
use crate::engine::predicates::predicate::Predicate;
use crate::fields::Checkpoint;
use crate::fields::Room;
use crate::fields::Statement;
use crate::refusal::OPEN_CHECKPOINTS;
use crate::refusal::Refusal;
use crate::refusal::TRAIL_ENTRIES;
use crate::refusal::VARIABLES;
use crate::stop::Unanswered;
use crate::stop::attempt;
use crate::store::CHECKED;
use crate::store::Outcome;
use crate::store::Store;

pub(crate) fn grow(store: &mut Store, (lower, upper): (i32, i32), answer: &mut Answer) -> Outcome {
    may_create(store, lower <= upper, 2)?;
    let id = store.change(|rust| rust.grow(lower, upper))?;
    answer.field(id.id());
    Ok(())
}

pub(crate) fn create_sparse(store: &mut Store, values: Vec<i32>, answer: &mut Answer) -> Outcome {
    may_create(store, !values.is_empty(), 2 + missing_values(&values))?;
    let id = store.change(|rust| rust.create_new_integer_variable_sparse(values))?;
    answer.field(id.id());
    Ok(())
}

fn may_create(store: &Store, has_values: bool, entries_needed: usize) -> Result<(), Refusal> {
    let room = TRAIL_ENTRIES - store.rust.num_trail_entries();
    Refusal::NotRoot.when(store.rust.get_checkpoint() > 0)?;
    Refusal::BadDomain.when(!has_values)?;
    Refusal::TooManyVariables.when(store.rust.num_domains() >= VARIABLES)?;
    Refusal::TrailFull.when(entries_needed > room)
}

/// How many values between the smallest and the largest are not listed, reckoned without walking
/// the range.
fn missing_values(values: &[i32]) -> usize {
    let mut distinct = values.to_vec();
    distinct.sort_unstable();
    distinct.dedup();
    match (distinct.first(), distinct.last()) {
        (Some(smallest), Some(largest)) => {
            largest.abs_diff(*smallest) as usize + 1 - distinct.len()
        }
        _ => 0,
    }
}

pub(crate) fn post(
    store: &mut Store,
    (statement, reason): (Statement, Option<ReasonRef>),
    answer: &mut Answer,
) -> Outcome {
    let predicate = store.predicate(statement)?;
    let posted = if CHECKED || may_be_refused(&store.rust, predicate) {
        post_on_clone(store, predicate, reason)?
    } else {
        attempt(|| post_to(&mut store.rust, predicate, reason))?
    };
    let changed = posted.map_err(|EmptyDomain| Refusal::Empty)?;
    answer.field(u8::from(changed));
    Ok(())
}

/// A wide guess at where a post gives 5, 6 or the departure's 7, so that the timing profile need
/// not clone for every post.
fn may_be_refused(rust: &Assignments, predicate: Predicate) -> bool {
    let id = predicate.get_domain();
    let value = predicate.get_right_hand_side();
    rust.num_trail_entries() >= TRAIL_ENTRIES
        || (predicate.is_not_equal_predicate() && (value == i32::MAX || value == i32::MIN))
        || (predicate.is_equality_predicate()
            && rust.get_lower_bound(id) > rust.get_upper_bound(id))
}

fn post_to(
    rust: &mut Assignments,
    predicate: Predicate,
    reason: Option<ReasonRef>,
) -> Result<bool, EmptyDomain> {
    rust.post_predicate(predicate, reason, &mut NotificationEngine)
}

/// Lets the Rust say what the post would do, and keeps that only if it is not refused.
fn post_on_clone(
    store: &mut Store,
    predicate: Predicate,
    reason: Option<ReasonRef>,
) -> Result<Result<bool, EmptyDomain>, Unanswered> {
    let mut clone = store.rust.clone();
    let posted = attempt(|| post_to(&mut clone, predicate, reason));
    if posted.is_ok() && is_departure(&store.rust, &clone, predicate) {
        return Ok(Err(EmptyDomain));
    }
    Refusal::TrailFull.when(clone.num_trail_entries() > TRAIL_ENTRIES)?;
    Refusal::StepOverflow.when(!CHECKED && steps_out_of_range(&store.rust, predicate))?;
    let result = posted?;
    store.rust = clone;
    Ok(result)
}

/// The departure for Equal on an empty variable: an entry, though no bound moved.
fn is_departure(before: &Assignments, after: &Assignments, predicate: Predicate) -> bool {
    let id = predicate.get_domain();
    predicate.is_equality_predicate()
        && after.num_trail_entries() > before.num_trail_entries()
        && after.get_lower_bound(id) == before.get_lower_bound(id)
        && after.get_upper_bound(id) == before.get_upper_bound(id)
}

/// In the timing profile the Rust's step past the limit does not stop, so it is asked for.
fn steps_out_of_range(before: &Assignments, predicate: Predicate) -> bool {
    let value = predicate.get_right_hand_side();
    predicate.is_not_equal_predicate()
        && (value == i32::MAX || value == i32::MIN)
        && before.get_assigned_value(&predicate.get_domain()) == Some(value)
}

pub(crate) fn new_checkpoint(store: &mut Store, (): (), answer: &mut Answer) -> Outcome {
    Refusal::TooManyCheckpoints.when(store.rust.get_checkpoint() >= OPEN_CHECKPOINTS)?;
    store.rust.new_checkpoint();
    answer.field(store.rust.get_checkpoint());
    Ok(())
}

pub(crate) fn synchronise(
    store: &mut Store,
    (Checkpoint(checkpoint), Room(variables), Room(lowers)): (Checkpoint, Room, Room),
    answer: &mut Answer,
) -> Outcome {
    Refusal::NotLower.when(checkpoint >= store.rust.get_checkpoint())?;
    let first_undone = store.rust.trail.values_at_checkpoint(checkpoint + 1);
    let undone = store.rust.num_trail_entries() - store.rust.position_of(first_undone);
    Refusal::NoRoom.when(variables.min(lowers) < undone)?;
    let pairs = store.change(|rust| rust.synchronise(checkpoint, &mut NotificationEngine))?;
    for (id, lower) in pairs {
        answer.field(id.id());
        answer.field(lower);
    }
    Ok(())
}
