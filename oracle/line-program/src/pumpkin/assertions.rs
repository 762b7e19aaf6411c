//! Pumpkin's assertions. In the checked profile all of them assert; in the timing profile none
//! does.

#[macro_export]
macro_rules! pumpkin_assert_simple {
    ($($arguments:tt)*) => { debug_assert!($($arguments)*) };
}

#[macro_export]
macro_rules! pumpkin_assert_moderate {
    ($($arguments:tt)*) => { debug_assert!($($arguments)*) };
}

#[macro_export]
macro_rules! pumpkin_assert_eq_simple {
    ($($arguments:tt)*) => { debug_assert_eq!($($arguments)*) };
}

#[macro_export]
macro_rules! pumpkin_assert_eq_moderate {
    ($($arguments:tt)*) => { debug_assert_eq!($($arguments)*) };
}
