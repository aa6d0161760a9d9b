//! Filled up: a guest physical address. Making one never fails; adding is checked, so that a sum past the last address panics.
use crate::error::Error;

#[derive(Clone, PartialEq, PartialOrd, Debug)]
pub struct ConfidentialVmPhysicalAddress(usize);

impl ConfidentialVmPhysicalAddress {
    pub fn new(address: usize) -> Result<Self, Error> {
        Ok(Self(address))
    }

    pub fn usize(&self) -> usize {
        self.0
    }

    pub fn add(&self, offset_in_bytes: usize) -> Self {
        Self(self.0 + offset_in_bytes)
    }
}
