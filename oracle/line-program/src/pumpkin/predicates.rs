pub(crate) use crate::engine::predicates::predicate_constructor::PredicateConstructor;
