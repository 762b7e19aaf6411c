//! What the bare Rust does where the rules depart from it. docs/DIFFERENCES.md tells of each; here
//! it is run.

use crate::engine::Assignments;
use crate::engine::notifications::NotificationEngine;
use crate::engine::predicates::predicate::Predicate;
use crate::engine::predicates::predicate::PredicateType;
use crate::predicates::PredicateConstructor;
use crate::refusal::OPEN_CHECKPOINTS;
use crate::refusal::Refusal;
use crate::refusal::TRAIL_ENTRIES;
use crate::refusal::VARIABLES;
use crate::stop::UNEXPLAINED;
use crate::stop::attempt;
use crate::stop::watch;
use crate::store::CHECKED;
use crate::variables::DomainId;

const ALWAYS_ONE: u32 = 0;

fn post(store: &mut Assignments, predicate: Predicate) -> Option<bool> {
    store
        .post_predicate(predicate, None, &mut NotificationEngine)
        .ok()
}

#[test]
fn equal_on_an_empty_variable_pushes_an_entry() {
    let id = DomainId::new(ALWAYS_ONE);
    let mut store = Assignments::default();
    assert_eq!(post(&mut store, id.lower_bound_predicate(2)), None);
    for value in [1, 2] {
        let entries = store.num_trail_entries();
        assert_eq!(post(&mut store, id.equality_predicate(value)), None);
        assert_eq!(store.num_trail_entries(), entries + 1);
        assert_eq!(
            (store.get_lower_bound(id), store.get_upper_bound(id)),
            (2, 1)
        );
    }
}

#[test]
fn undoing_that_entry_stops_or_undoes_too_much() {
    watch();
    let id = DomainId::new(ALWAYS_ONE);
    let mut store = Assignments::default();
    assert_eq!(post(&mut store, id.lower_bound_predicate(2)), None);
    store.new_checkpoint();
    assert_eq!(post(&mut store, id.equality_predicate(1)), None);
    let undone = attempt(|| store.synchronise(0, &mut NotificationEngine));
    if CHECKED {
        assert_eq!(undone, Err(UNEXPLAINED));
    } else {
        assert_eq!(store.get_lower_bound(id), 1);
    }
}

#[test]
fn an_assigned_value_in_the_past_is_read_today() {
    let id = DomainId::new(ALWAYS_ONE);
    let mut store = Assignments::default();
    assert_eq!(post(&mut store, id.lower_bound_predicate(2)), None);
    assert_eq!(store.get_assigned_value_at_trail_position(&id, 1), Some(2));
    assert_eq!(store.get_lower_bound_at_trail_position(id, 1), 1);
}

#[test]
fn a_large_number_passes_for_another_variable_and_operator() {
    let packed = Predicate::new(DomainId::new(1 << 30), PredicateType::LowerBound, 1);
    assert_eq!(packed.get_domain(), DomainId::new(ALWAYS_ONE));
    assert_eq!(packed.get_predicate_type(), PredicateType::NotEqual);
    let mut store = Assignments::default();
    assert_eq!(post(&mut store, packed), None);
    assert_eq!(store.get_lower_bound(DomainId::new(ALWAYS_ONE)), 2);
}

#[test]
#[cfg_attr(not(debug_assertions), ignore = "the timing profile asserts nothing")]
fn refusals_stand_where_the_rust_stops() {
    watch();
    let fresh = Assignments::default;
    let opened = || {
        let mut store = fresh();
        store.new_checkpoint();
        store
    };
    assert!(attempt(|| fresh().get_lower_bound(DomainId::new(1))).is_err());
    assert!(attempt(|| opened().grow(1, 1)).is_err());
    assert!(attempt(|| fresh().grow(2, 1)).is_err());
    assert!(attempt(|| fresh().create_new_integer_variable_sparse(vec![])).is_err());
    assert!(attempt(|| fresh().synchronise(0, &mut NotificationEngine)).is_err());
    assert!(attempt(|| fresh().get_trail_entry(2)).is_err());
    assert!(attempt(|| fresh().trail.values_at_checkpoint(1).len()).is_err());
    assert!(attempt(|| opened().find_last_decision()).is_err());
}

#[test]
#[cfg_attr(
    not(debug_assertions),
    ignore = "the timing profile has no overflow checks"
)]
fn a_removal_overflows_after_its_entry_is_pushed() {
    watch();
    for only in [i32::MIN, i32::MAX] {
        let mut store = Assignments::default();
        let id = store.grow(only, only);
        let posted = attempt(|| post(&mut store, id.disequality_predicate(only)));
        assert_eq!(posted, Err(Refusal::StepOverflow.into()));
        assert_eq!(store.num_trail_entries(), 5);
        assert!(store.get_holes(id).eq([only]));
    }
}

#[test]
fn the_rust_has_no_capacities() {
    let mut store = Assignments::default();
    for number in 1..=VARIABLES {
        assert_eq!(store.grow(1, 1).id(), number);
    }
    let id = store.create_new_integer_variable_sparse(vec![1, 1023]);
    assert_eq!(store.get_holes(id).count(), 1021);
    assert!(store.num_trail_entries() > TRAIL_ENTRIES);
    for _ in 0..=OPEN_CHECKPOINTS {
        store.new_checkpoint();
    }
    assert_eq!(store.get_checkpoint(), OPEN_CHECKPOINTS + 1);
}
