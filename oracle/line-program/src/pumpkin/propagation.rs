/// A stand-in: the kinds of change that a listener can ask for. The store has none of them.
#[derive(Clone, Copy, Debug)]
pub(crate) enum DomainEvent {
    Assign,
    LowerBound,
    UpperBound,
    Removal,
}
