//! Filled up: a hardware hart, which holds its dummy or a confidential hart.
use crate::core::control_data::ConfidentialHart;

#[derive(Clone, PartialEq, Debug)]
pub struct HardwareHart {
    confidential_hart: ConfidentialHart,
}

impl HardwareHart {
    pub fn init(id: usize) -> Self {
        Self { confidential_hart: ConfidentialHart::dummy(id) }
    }

    pub fn confidential_hart(&self) -> &ConfidentialHart {
        &self.confidential_hart
    }

    pub fn confidential_hart_mut(&mut self) -> &mut ConfidentialHart {
        &mut self.confidential_hart
    }
}
