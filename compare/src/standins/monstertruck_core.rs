//! The names that the source's examples use.

pub use super::cgmath64;
pub use crate::derivatives;

/// Equal up to 1e-6.
macro_rules! assert_near {
    ($left:expr, $right:expr $(,)?) => {
        assert!($crate::standins::cgmath::AbsDiffEq::abs_diff_eq(&$left, &$right, 1.0e-6))
    };
}

/// Equal up to 1e-12.
macro_rules! assert_near2 {
    ($left:expr, $right:expr $(,)?) => {
        assert!($crate::standins::cgmath::AbsDiffEq::abs_diff_eq(&$left, &$right, 1.0e-6 * 1.0e-6))
    };
}

pub(crate) use {assert_near, assert_near2};

/// Errors of the examples.
pub mod anyhow {
    #[derive(Debug)]
    pub struct Error(#[allow(dead_code)] String);

    impl Error {
        pub fn msg(text: impl ToString) -> Self { Error(text.to_string()) }
    }

    pub type Result<T> = std::result::Result<T, Error>;
}
