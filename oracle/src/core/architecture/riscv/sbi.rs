//! Filled up: what the hypervisor hands over when a VM is promoted, for the two registers that setup takes from it.
use crate::core::architecture::riscv::specification::{CSR_VSATP, CSR_VSSTATUS};

pub struct NaclSharedMemory {
    pub vsatp: usize,
    pub vsstatus: usize,
}

impl NaclSharedMemory {
    pub fn csr(&self, number: u16) -> usize {
        match number {
            CSR_VSATP => self.vsatp,
            CSR_VSSTATUS => self.vsstatus,
            _ => panic!("Bug: the shared memory has no register {:#x}", number),
        }
    }
}
