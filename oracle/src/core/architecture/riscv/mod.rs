//! Filled up: what stands around `hart_lifecycle_state.rs`.
pub use hart_architectural_state::{ControlStatusRegisters, GeneralPurposeRegister, GeneralPurposeRegisters, HartArchitecturalState};
pub use hart_lifecycle_state::HartLifecycleState;

pub mod sbi;
pub mod specification;

mod hart_architectural_state;
mod hart_lifecycle_state;
