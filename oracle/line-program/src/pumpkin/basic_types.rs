//! The Rust's trail, with what our own printing has to see of its private fields.

pub(crate) use trail::Trail;

mod trail {
    include!(concat!(env!("OUT_DIR"), "/trail.rs"));

    impl<T> Trail<T> {
        /// For each open checkpoint the length that the trail had when it was opened.
        pub(crate) fn lengths_at_opening(&self) -> &[usize] {
            &self.trail_delimiter
        }
    }
}
