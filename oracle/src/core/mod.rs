//! Filled up: what stands around the original's files.
pub mod architecture;
pub mod control_data;
pub mod memory_layout;
