//! The trace program's language over the Rust, with what document 01 adds to it: refusals by number, effects and lines.
pub use command::Command;
pub use machine::{Answer, Machine, Outcome, Tables, number_of, operation, operation_numbers, state_number};
pub use random::Random;
pub use request::Request;

pub mod generator;

mod command;
mod machine;
mod random;
mod request;
