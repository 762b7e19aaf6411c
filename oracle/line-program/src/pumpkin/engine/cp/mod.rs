pub(crate) mod assignments;

pub(crate) mod reason {
    /// A reason is a number that the store keeps and never looks into.
    #[derive(Clone, Copy, Debug, PartialEq, Eq)]
    pub(crate) struct ReasonRef(pub(crate) u32);
}
