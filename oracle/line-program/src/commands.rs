//! From a line to the call that it names.

use crate::answer::Answer;
use crate::changes;
use crate::fields::Fields;
use crate::fields::Position;
use crate::fields::Room;
use crate::listings;
use crate::questions;
use crate::refusal::LONGEST_ROOM;
use crate::refusal::Refusal;
use crate::state;
use crate::stop::attempt;
use crate::store::Outcome;
use crate::store::Store;

#[derive(Clone, Copy, Debug, PartialEq, Eq)]
pub(crate) enum Language {
    Trailscript,
    Callscript,
}

pub(crate) fn perform(
    language: Language,
    line: &[u8],
    store: &mut Store,
    answer: &mut Answer,
) -> Outcome {
    let mut fields = Fields::of(line);
    let name = fields.next().unwrap_or_default();
    match name {
        b"var" => changes::grow(store, fields.whole()?, answer),
        b"list" => changes::create_sparse(store, fields.whole()?, answer),
        b"post" => changes::post(store, fields.whole()?, answer),
        b"open" => changes::new_checkpoint(store, fields.whole()?, answer),
        b"back" => {
            let pairs = Room(LONGEST_ROOM as usize);
            changes::synchronise(store, (fields.whole()?, pairs, pairs), answer)
        }
        b"ask" => questions::evaluate(store, fields.whole()?, answer),
        b"at" => questions::evaluate_at(store, fields.whole()?, answer),
        b"show" => questions::show(store, fields.whole()?, answer),
        b"count" => questions::count(store, fields.whole()?, answer),
        _ if language == Language::Callscript => further(name, fields, store, answer),
        _ => Err(Refusal::BadLine.into()),
    }
}

/// What callscript has above trailscript.
fn further(name: &[u8], fields: Fields<'_>, store: &mut Store, answer: &mut Answer) -> Outcome {
    match name {
        b"fresh" => {
            let () = fields.whole()?;
            *store = Store::default();
            Ok(())
        }
        b"state" => state::print(store, fields.whole()?, answer),
        b"synchronise" => changes::synchronise(store, fields.whole()?, answer),
        b"get_trail_entry" => questions::get_trail_entry(store, fields.whole()?, answer),
        b"find_last_decision" => questions::find_last_decision(store, fields.whole()?, answer),
        b"is_value_in_domain" => questions::is_value_in_domain(store, fields.whole()?, answer),
        b"is_value_in_domain_at_trail_position" => {
            questions::is_value_in_domain_at(store, fields.whole()?, answer)
        }
        b"get_domain_iterator" => listings::values(store, fields.whole()?, answer),
        b"get_holes_at_checkpoint" => listings::holes_at_checkpoint(store, fields.whole()?, answer),
        b"get_domain_description" => listings::domain_description(store, fields.whole()?, answer),
        b"values_at_checkpoint" => listings::entries_of_checkpoint(store, fields.whole()?, answer),
        _ => by_kind(name, fields, store, answer),
    }
}

/// The calls that are many of a kind.
fn by_kind(name: &[u8], fields: Fields<'_>, store: &Store, answer: &mut Answer) -> Outcome {
    let rust = &store.rust;
    if let Some(question) = questions::about_store(name) {
        let () = fields.whole()?;
        attempt(|| question(rust, answer))
    } else if let Some(question) = questions::about_variable(name) {
        let id = store.variable(fields.whole()?)?;
        attempt(|| question(rust, id, answer))
    } else if let Some(question) = questions::about_variable_at(name) {
        let (Position(position), variable) = fields.whole()?;
        let id = store.variable(variable)?;
        attempt(|| question(rust, id, position, answer))
    } else if let Some(question) = questions::about_predicate(name) {
        let predicate = store.predicate(fields.whole()?)?;
        attempt(|| question(rust, predicate, answer))
    } else if let Some(listing) = listings::of_variable(name) {
        listings::list(store, listing, fields.whole()?, answer)
    } else {
        Err(Refusal::BadLine.into())
    }
}
