//! Filled up: the identifier of a confidential VM.

#[derive(Clone, Copy, PartialEq, Debug)]
pub struct ConfidentialVmId(usize);

impl ConfidentialVmId {
    pub fn new(id: usize) -> Self {
        Self(id)
    }
}
