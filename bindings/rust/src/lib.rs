//! The hart tables of a RISC-V security monitor, for a monitor in Rust. Requests have the names of the original Rust's methods, but for `set_up`,
//! which is its `new`; each calls one proved function. A request takes any numbers and any tables, and what cannot be done is refused and changes nothing, but for what stands when a
//! queue is full (`Error::ReachedMaxNumberOfRemoteCommands`).
//!
//! The caller lends all memory, gives one request at a time and lets nobody else write the tables. Nothing is allocated here.
//!
//! For a caller that keeps records of its own, `ConfidentialHart` has the original's transitions, and `MmioRegions` the regions of a lent run.
#![no_std]

mod answers;
mod confidential_flow;
mod confidential_vm;
pub mod ffi;
mod lent;

pub use answers::{Error, HartLifecycleState, Reply, Resumed};
pub use confidential_flow::{ConfidentialFlow, Effect, effects};
pub use confidential_vm::{ConfidentialVm, Setup};
pub use lent::{ConfidentialHart, ConfidentialVmMmioRegion, MmioRegions};

/// The words of a VM's head: n, m, the allowed mask and the number of regions.
pub const HEAD_WORDS: usize = 4;
/// The words of a home or a hardware row.
pub const HART_WORDS: usize = 12;
/// The registers of a hart's record: a0, a1, mepc, vsatp, mstatus and vsstatus.
pub const REGISTERS: usize = 6;
/// The words of a hart's queue: how many commands wait, and 64 places of six words.
pub const QUEUE_WORDS: usize = 385;
/// The words of a region: its base and one past its end.
pub const REGION_WORDS: usize = 2;
/// The words of an effect record: a hart's number and the six numbers of the command that it did.
pub const EFFECT_WORDS: usize = 7;
/// The most harts of a VM.
pub const MOST_HARTS: usize = 1024;
/// The most hardware harts.
pub const MOST_HARDWARE_HARTS: usize = 64;
/// The most commands that wait for a hart.
pub const MOST_COMMANDS: usize = 64;
/// The most regions of a VM, for which there must always be room.
pub const MOST_REGIONS: usize = 1024;
/// The words that a function of `ffi` asks for the values of its answer.
pub const VALUE_WORDS: usize = 4;
/// The words that a function of `ffi` which does commands asks for how many it did and the values of its answer.
pub const REPLY_VALUE_WORDS: usize = 5;

/// A confidential hart's number.
#[derive(Clone, Copy, PartialEq, Eq, Debug)]
pub struct ConfidentialHartId(pub u64);

/// A hardware hart's number.
#[derive(Clone, Copy, PartialEq, Eq, Debug)]
pub struct HardwareHartId(pub u64);

/// A command of one hart to others: its kind, the harts that it selects, and its numbers. A number that its kind does not use is 0.
#[derive(Clone, Copy, PartialEq, Eq, Debug, Default)]
pub struct ConfidentialHartRemoteCommand {
    pub kind: u64,
    pub mask: u64,
    pub base: u64,
    pub start: u64,
    pub size: u64,
    pub tag: u64,
}

impl ConfidentialHartRemoteCommand {
    /// An interrupt.
    pub fn ipi(mask: u64, base: u64) -> Self {
        Self { kind: 1, mask, base, ..Self::default() }
    }

    /// An instruction fence.
    pub fn remote_fence_i(mask: u64, base: u64) -> Self {
        Self { kind: 2, mask, base, ..Self::default() }
    }

    /// A fence of the guest's translations of some addresses.
    pub fn remote_sfence_vma(mask: u64, base: u64, start: u64, size: u64) -> Self {
        Self { kind: 3, mask, base, start, size, tag: 0 }
    }

    /// The same, of one address space.
    pub fn remote_sfence_vma_asid(mask: u64, base: u64, start: u64, size: u64, asid: u64) -> Self {
        Self { kind: 4, mask, base, start, size, tag: asid }
    }

    /// A fence of the hypervisor's translations of some addresses, of one VM.
    pub fn remote_hfence_gvma_vmid(mask: u64, base: u64, start: u64, size: u64, vmid: u64) -> Self {
        Self { kind: 5, mask, base, start, size, tag: vmid }
    }

    /// Powers every hart off that gets it.
    pub fn shutdown_request() -> Self {
        Self { kind: 6, ..Self::default() }
    }

    /// The six numbers in document 01's order.
    pub fn numbers(&self) -> [u64; 6] {
        [self.kind, self.mask, self.base, self.start, self.size, self.tag]
    }

    /// A command by its six numbers, well formed or not.
    pub fn of_numbers([kind, mask, base, start, size, tag]: [u64; 6]) -> Self {
        Self { kind, mask, base, start, size, tag }
    }
}

/// An operation that waits for the hypervisor: its kind (1 SbiRequest, 2 ResumeHart, 3 MmioLoad, 4 MmioStore, 5 SharePage) and two numbers that
/// nobody reads here.
#[derive(Clone, Copy, PartialEq, Eq, Debug)]
pub struct ResumableOperation {
    pub kind: u64,
    pub x: u64,
    pub y: u64,
}
