//! The original Rust of the hart tables without locks, and a driver that runs it on traces. README.md says what was taken out of each
//! file and what was filled up.
extern crate alloc;

/// An error where a condition does not hold.
macro_rules! ensure {
    ($condition:expr, $error:expr) => {
        if $condition { Ok(()) } else { Err($error) }
    };
}

/// An error where a condition holds.
macro_rules! ensure_not {
    ($condition:expr, $error:expr) => {
        ensure!(!$condition, $error)
    };
}

pub mod confidential_flow;
pub mod core;
pub mod driver;
pub mod effects;
pub mod error;
