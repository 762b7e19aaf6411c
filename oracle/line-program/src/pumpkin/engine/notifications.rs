//! A stand-in for Pumpkin's listener, which does nothing.

use crate::engine::predicates::predicate::Predicate;
use crate::engine::variables::DomainId;

#[derive(Clone, Copy, Debug)]
pub(crate) struct NotificationEngine;

impl NotificationEngine {
    pub(crate) fn event_occurred(
        &mut self,
        _lower_bound_before: i32,
        _upper_bound_before: i32,
        _lower_bound_after: i32,
        _upper_bound_after: i32,
        _removal_took_place: bool,
        _domain_id: DomainId,
    ) {
    }

    #[allow(clippy::too_many_arguments, reason = "the Rust calls it so")]
    pub(crate) fn undo_trail_entry(
        &mut self,
        _fixed_before: bool,
        _lower_bound_before: i32,
        _upper_bound_before: i32,
        _lower_bound_after: i32,
        _upper_bound_after: i32,
        _trail_index: usize,
        _predicate: Predicate,
    ) {
    }

    pub(crate) fn clear_events(&mut self) {}
}
