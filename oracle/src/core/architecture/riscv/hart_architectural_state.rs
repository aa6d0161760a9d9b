//! Filled up: the six saved registers of a hart, with the calls that the original makes on them.
use crate::core::architecture::riscv::sbi::NaclSharedMemory;
use crate::core::architecture::riscv::specification::{CSR_MEPC, CSR_MSTATUS, CSR_VSATP, CSR_VSSTATUS};

#[allow(non_camel_case_types)]
#[derive(Clone, Copy)]
pub enum GeneralPurposeRegister {
    a0,
    a1,
}

#[derive(Clone, PartialEq, Debug, Default)]
pub struct GeneralPurposeRegisters {
    a0: usize,
    a1: usize,
}

impl GeneralPurposeRegisters {
    pub fn read(&self, register: GeneralPurposeRegister) -> usize {
        match register {
            GeneralPurposeRegister::a0 => self.a0,
            GeneralPurposeRegister::a1 => self.a1,
        }
    }

    pub fn write(&mut self, register: GeneralPurposeRegister, value: usize) {
        match register {
            GeneralPurposeRegister::a0 => self.a0 = value,
            GeneralPurposeRegister::a1 => self.a1 = value,
        }
    }
}

/// The saved value of the control and status register with this number.
#[derive(Clone, PartialEq, Debug, Default)]
pub struct ControlStatusRegister<const NUMBER: u16>(usize);

impl<const NUMBER: u16> ControlStatusRegister<NUMBER> {
    pub fn read_from_main_memory(&self) -> usize {
        self.0
    }

    pub fn save_value_in_main_memory(&mut self, value: usize) {
        self.0 = value;
    }

    pub fn save_nacl_value_in_main_memory(&mut self, shared_memory: &NaclSharedMemory) {
        self.0 = shared_memory.csr(NUMBER);
    }

    pub fn disable_bit_on_saved_value(&mut self, bit_index: usize) {
        self.0 &= !(1 << bit_index);
    }
}

#[derive(Clone, PartialEq, Debug, Default)]
pub struct ControlStatusRegisters {
    pub mepc: ControlStatusRegister<CSR_MEPC>,
    pub vsatp: ControlStatusRegister<CSR_VSATP>,
    pub mstatus: ControlStatusRegister<CSR_MSTATUS>,
    pub vsstatus: ControlStatusRegister<CSR_VSSTATUS>,
}

#[derive(Clone, PartialEq, Debug)]
pub struct HartArchitecturalState {
    gprs: GeneralPurposeRegisters,
    csrs: ControlStatusRegisters,
}

impl HartArchitecturalState {
    pub fn empty() -> Self {
        Self { gprs: GeneralPurposeRegisters::default(), csrs: ControlStatusRegisters::default() }
    }

    pub fn gprs(&self) -> &GeneralPurposeRegisters {
        &self.gprs
    }

    pub fn gprs_mut(&mut self) -> &mut GeneralPurposeRegisters {
        &mut self.gprs
    }

    pub fn csrs(&self) -> &ControlStatusRegisters {
        &self.csrs
    }

    pub fn csrs_mut(&mut self) -> &mut ControlStatusRegisters {
        &mut self.csrs
    }
}
