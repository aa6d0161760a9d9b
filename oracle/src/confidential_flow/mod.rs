// SPDX-FileCopyrightText: 2023 IBM Corporation
// SPDX-FileContributor: Wojciech Ozga <woz@zurich.ibm.com>, IBM Research - Zurich
// SPDX-License-Identifier: Apache-2.0
// Changed for Oudrameng: cut to the modules that are left, and `Resumed` is added. Every change stands in oracle/README.md.
use crate::core::control_data::ResumableOperation;
pub use finite_state_machine::ConfidentialFlow;

pub mod handlers;

mod finite_state_machine;

/// What `resume_confidential_hart_execution` answers, where the original leaves the security monitor.
#[derive(PartialEq, Debug)]
pub enum Resumed {
    /// The hart is powered off and runs no more.
    Off,
    /// The hart goes on with the answer to this operation.
    Operation(ResumableOperation),
    /// The hart just runs.
    Run,
}
