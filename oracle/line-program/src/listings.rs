//! The calls that list into lent room. No more is taken from the Rust than one thing above the
//! room, so that a listing that does not fit is refused at once.

use crate::answer::Answer;
use crate::engine::Assignments;
use crate::fields::Checkpoint;
use crate::fields::Room;
use crate::fields::Variable;
use crate::refusal::Refusal;
use crate::stop::ITERATOR_PAST_GREATEST_VALUE;
use crate::stop::attempt;
use crate::store::CHECKED;
use crate::store::Outcome;
use crate::store::Store;
use crate::variables::DomainId;

pub(crate) type OfVariable = fn(&Assignments, DomainId, usize) -> Vec<i32>;

/// The listings of a variable; none has to give more than the given number of values.
pub(crate) fn of_variable(name: &[u8]) -> Option<OfVariable> {
    Some(match name {
        b"get_holes" => sorted_holes,
        b"get_holes_at_current_checkpoint" => |rust, id, most| {
            rust.get_holes_at_current_checkpoint(id)
                .take(most)
                .collect()
        },
        b"get_initial_holes" => |rust, id, _| rust.get_initial_holes(id),
        _ => return None,
    })
}

/// The Rust's order is that of its hash map, which means nothing.
fn sorted_holes(rust: &Assignments, id: DomainId, _: usize) -> Vec<i32> {
    let mut holes: Vec<_> = rust.get_holes(id).collect();
    holes.sort_unstable();
    holes
}

/// In the timing profile the Rust's iterator does not stop past the greatest value, but goes round
/// by way of the smallest, for hours; so it is not asked.
pub(crate) fn values(
    store: &Store,
    (variable, room): (Variable, Room),
    answer: &mut Answer,
) -> Outcome {
    let id = store.variable(variable)?;
    if !CHECKED && store.rust.get_upper_bound(id) >= i32::MAX - 1 {
        return Err(ITERATOR_PAST_GREATEST_VALUE);
    }
    let listing = |rust: &Assignments, id, most| rust.get_domain_iterator(id).take(most).collect();
    list(store, listing, (variable, room), answer)
}

pub(crate) fn list(
    store: &Store,
    listing: OfVariable,
    (variable, Room(room)): (Variable, Room),
    answer: &mut Answer,
) -> Outcome {
    let id = store.variable(variable)?;
    let values = attempt(|| listing(&store.rust, id, room + 1))?;
    Refusal::NoRoom.when(values.len() > room)?;
    answer.listing(&values);
    Ok(())
}

pub(crate) fn holes_at_checkpoint(
    store: &Store,
    (variable, Checkpoint(checkpoint), Room(room)): (Variable, Checkpoint, Room),
    answer: &mut Answer,
) -> Outcome {
    let id = store.variable(variable)?;
    let listing = || {
        store
            .rust
            .get_holes_at_checkpoint(id, checkpoint)
            .collect::<Vec<_>>()
    };
    let holes = attempt(listing)?;
    Refusal::NoRoom.when(holes.len() > room)?;
    answer.listing(&holes);
    Ok(())
}

pub(crate) fn domain_description(
    store: &Store,
    (variable, Room(kinds), Room(values)): (Variable, Room, Room),
    answer: &mut Answer,
) -> Outcome {
    let id = store.variable(variable)?;
    let mut predicates = attempt(|| store.rust.get_domain_description(id))?;
    Refusal::NoRoom.when(predicates.len() > kinds.min(values))?;
    let bounds = predicates.partition_point(|predicate| !predicate.is_not_equal_predicate());
    predicates[bounds..].sort_unstable();
    answer.field(predicates.len());
    for predicate in predicates {
        answer.kind(predicate.get_predicate_type());
        answer.field(predicate.get_right_hand_side());
    }
    Ok(())
}

pub(crate) fn entries_of_checkpoint(
    store: &Store,
    (Checkpoint(checkpoint), Room(room)): (Checkpoint, Room),
    answer: &mut Answer,
) -> Outcome {
    Refusal::NoSuchEntry.when(checkpoint > store.rust.get_checkpoint())?;
    let entries = attempt(|| store.rust.trail.values_at_checkpoint(checkpoint))?;
    Refusal::NoRoom.when(entries.len() > room)?;
    let first = store.rust.position_of(entries);
    let positions: Vec<_> = (first..first + entries.len()).collect();
    answer.listing(&positions);
    Ok(())
}
