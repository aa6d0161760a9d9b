//! What a hart did: each command that `ConfidentialHart::execute` ran, in order. Filled up: the original only changes registers here.
use crate::core::control_data::ConfidentialHartRemoteCommand;
use std::cell::RefCell;

/// A hart's number and the command that it did.
#[derive(Clone, PartialEq, Debug)]
pub struct Effect {
    pub confidential_hart_id: usize,
    pub command: ConfidentialHartRemoteCommand,
}

thread_local! {
    static DONE: RefCell<Vec<Effect>> = const { RefCell::new(Vec::new()) };
}

pub fn record(confidential_hart_id: usize, command: &ConfidentialHartRemoteCommand) {
    DONE.with_borrow_mut(|done| done.push(Effect { confidential_hart_id, command: command.clone() }));
}

/// The effects since the last call.
pub fn take() -> Vec<Effect> {
    DONE.take()
}
