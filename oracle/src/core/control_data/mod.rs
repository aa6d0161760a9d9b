// SPDX-FileCopyrightText: 2023 IBM Corporation
// SPDX-FileContributor: Wojciech Ozga <woz@zurich.ibm.com>, IBM Research - Zurich
// SPDX-License-Identifier: Apache-2.0
// Changed for Oudrameng: cut to the modules that are left. Every change stands in oracle/README.md.
pub use confidential_hart::ConfidentialHart;
pub use confidential_hart_remote_command::{ConfidentialHartRemoteCommand, ConfidentialHartRemoteCommandExecutable};
pub use confidential_vm::ConfidentialVm;
pub use confidential_vm_id::ConfidentialVmId;
pub use confidential_vm_mmio_region::ConfidentialVmMmioRegion;
pub use hardware_hart::HardwareHart;
pub use resumable_operation::ResumableOperation;
pub use storage::ControlDataStorage;

mod confidential_hart;
mod confidential_hart_remote_command;
mod confidential_vm;
mod confidential_vm_id;
mod confidential_vm_mmio_region;
mod hardware_hart;
mod resumable_operation;
mod storage;
