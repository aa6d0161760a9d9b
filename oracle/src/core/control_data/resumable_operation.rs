//! Filled up: an operation that the hypervisor must answer. Each kind carries two numbers that nobody reads.

#[derive(Clone, PartialEq, Debug)]
pub enum ResumableOperation {
    SbiRequest(usize, usize),
    ResumeHart(usize, usize),
    MmioLoad(usize, usize),
    MmioStore(usize, usize),
    SharePage(usize, usize),
}
