//! Filled up: the request to shut the whole VM down.

#[derive(Clone, PartialEq, Debug)]
pub struct ShutdownRequest {}

impl ShutdownRequest {
    /// A shutdown is for every hart.
    pub fn is_hart_selected(&self, _confidential_hart_id: usize) -> bool {
        true
    }
}
