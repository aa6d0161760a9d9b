//! The proved functions and the original Rust on the same numbers. `pair` gives both the same requests and compares all that they give and hold;
//! `runs` has the requests. The leaves, the functions on lent records and the lines of a trace are compared by the tests.
pub mod document_01;
pub mod draw;
pub mod entries;
pub mod leaves;
pub mod lent;
pub mod lines;
pub mod log;
pub mod original;
pub mod pair;
pub mod runs;
pub mod seen;
pub mod shortest;
pub mod tables;
pub mod timing;

pub use oudrameng::{EFFECT_WORDS, HART_WORDS, HEAD_WORDS, MOST_REGIONS, QUEUE_WORDS, REGION_WORDS, REPLY_VALUE_WORDS, VALUE_WORDS};
