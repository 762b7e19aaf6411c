//! What is seen of the store's private fields, as the Rust keeps it.

use super::Assignments;
use super::BoundUpdateInfo;
use super::ConstraintProgrammingTrailEntry;
use crate::engine::variables::DomainId;

pub(crate) struct BoundSeen {
    pub(crate) bound: i32,
    pub(crate) checkpoint: usize,
    pub(crate) position: usize,
}

pub(crate) struct HoleSeen {
    pub(crate) value: i32,
    pub(crate) checkpoint: usize,
    pub(crate) position: usize,
    pub(crate) moved_lower: bool,
    pub(crate) moved_upper: bool,
}

impl Assignments {
    pub(crate) fn initial_mark(&self, domain_id: DomainId) -> usize {
        self.domains[domain_id].initial_bounds_below_trail
    }

    pub(crate) fn lower_updates(&self, domain_id: DomainId) -> impl Iterator<Item = BoundSeen> {
        self.domains[domain_id]
            .lower_bound_updates
            .iter()
            .map(bound_seen)
    }

    pub(crate) fn upper_updates(&self, domain_id: DomainId) -> impl Iterator<Item = BoundSeen> {
        self.domains[domain_id]
            .upper_bound_updates
            .iter()
            .map(bound_seen)
    }

    /// The holes in order of removal. The Rust keeps a hole's position in its map alone.
    pub(crate) fn hole_updates(&self, domain_id: DomainId) -> impl Iterator<Item = HoleSeen> {
        let domain = &self.domains[domain_id];
        domain.hole_updates.iter().map(|update| HoleSeen {
            value: update.removed_value,
            checkpoint: update.checkpoint,
            position: domain.holes[&update.removed_value].trail_position,
            moved_lower: update.triggered_lower_bound_update,
            moved_upper: update.triggered_upper_bound_update,
        })
    }

    /// Where the given entries, which the trail lent, stand on the trail.
    pub(crate) fn position_of(&self, entries: &[ConstraintProgrammingTrailEntry]) -> usize {
        let distance = entries.as_ptr().addr() - self.trail.as_ptr().addr();
        distance / size_of::<ConstraintProgrammingTrailEntry>()
    }
}

fn bound_seen(update: &BoundUpdateInfo) -> BoundSeen {
    BoundSeen {
        bound: update.bound,
        checkpoint: update.checkpoint,
        position: update.trail_position,
    }
}
