//! Filled up: where the security monitor keeps its confidential VMs, here one of them and one request at a time.
use crate::core::control_data::{ConfidentialVm, ConfidentialVmId};
use crate::error::Error;
use std::cell::RefCell;

thread_local! {
    static CONFIDENTIAL_VM: RefCell<Option<ConfidentialVm>> = const { RefCell::new(None) };
}

pub struct ControlDataStorage {}

impl ControlDataStorage {
    pub fn store(confidential_vm: Option<ConfidentialVm>) {
        CONFIDENTIAL_VM.set(confidential_vm);
    }

    pub fn load() -> Option<ConfidentialVm> {
        CONFIDENTIAL_VM.with_borrow(|confidential_vm| confidential_vm.clone())
    }

    pub fn try_confidential_vm<F, O>(confidential_vm_id: ConfidentialVmId, op: O) -> Result<F, Error>
    where
        O: FnOnce(&mut ConfidentialVm) -> Result<F, Error>,
    {
        CONFIDENTIAL_VM.with_borrow_mut(|confidential_vm| match confidential_vm {
            Some(confidential_vm) if confidential_vm.confidential_vm_id() == confidential_vm_id => op(confidential_vm),
            _ => Err(Error::InvalidConfidentialVmId()),
        })
    }
}
