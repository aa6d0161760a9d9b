//! The proved C functions, as `include/oudrameng.h` declares them. Each takes numbers and then runs of words, a run as its first word and its
//! length, and gives document 01's number. Any numbers and any words will do, if the runs are there and do not overlap.
//!
//! Those on lent records, as `include/oudrameng_lent.h` declares them, come last. Each takes a record, or a run as its first record and its
//! length, and then numbers.
use crate::{ConfidentialHart, ConfidentialVmMmioRegion};

/// A run that is read, or that is also written.
macro_rules! words {
    (const) => { *const u64 };
    (mut) => { *mut u64 };
}

/// Declares functions by their numbers and their runs of words.
macro_rules! declared {
    ($($name:ident($($number:ident)*; $($access:tt $words:ident),*);)*) => {
        unsafe extern "C" {
            $(pub fn $name($($number: u64,)* $($words: words!($access), _: usize),*) -> u64;)*
        }
    };
}

#[rustfmt::skip]
declared! {
    oudrameng_are_tables_sound(; const head, const home, const hardware, const queues, const regions);
    oudrameng_new(n m boot a1 mepc vsatp vsstatus; mut head, mut home, mut hardware, mut queues, mut regions);
    oudrameng_steal_confidential_hart(hart on; const head, mut home, mut hardware, const queues, const regions, mut value);
    oudrameng_return_confidential_hart(on; const head, mut home, mut hardware, const queues, const regions);
    oudrameng_allow_external_interrupt(bits; mut head, const home, const hardware, const queues, const regions);
    oudrameng_start_confidential_hart(hart address opaque; const head, mut home, const hardware, const queues, const regions);
    oudrameng_confidential_hart_lifecycle_state(hart; const head, const home, const hardware, const queues, const regions, mut value);
    oudrameng_is_vm_executing(; const head, const home, const hardware, const queues, const regions, mut value);
    oudrameng_broadcast_remote_command(sender kind mask base start size tag;
        const head, const home, const hardware, mut queues, const regions, mut value);
    oudrameng_add_mmio_region(base size; mut head, const home, const hardware, const queues, mut regions);
    oudrameng_remove_mmio_region(base size; mut head, const home, const hardware, const queues, mut regions);
    oudrameng_is_mmio_region_defined(base size; const head, const home, const hardware, const queues, const regions, mut value);
    oudrameng_suspend_confidential_hart(on; const head, const home, mut hardware, const queues, const regions);
    oudrameng_stop_confidential_hart(on; const head, const home, mut hardware, const queues, const regions);
    oudrameng_resume_confidential_hart(on address opaque; const head, const home, mut hardware, const queues, const regions);
    oudrameng_shutdown_confidential_hart(on; const head, const home, mut hardware, const queues, const regions);
    oudrameng_set_resumable_operation(on kind x y; const head, const home, mut hardware, const queues, const regions);
    oudrameng_flow_broadcast_remote_command(on kind mask base start size tag;
        const head, const home, mut hardware, mut queues, const regions, mut effects, mut value);
    oudrameng_process_confidential_hart_remote_commands(on;
        const head, const home, mut hardware, mut queues, const regions, mut effects, mut value);
    oudrameng_resume_confidential_hart_execution(on;
        const head, const home, mut hardware, mut queues, const regions, mut effects, mut value);
}

/// What adding and removing give: the number, and how many regions stand then.
#[derive(Clone, Copy, PartialEq, Eq, Debug)]
#[repr(C)]
pub struct Changed {
    pub number: u64,
    pub count: u64,
}

/// What asking for a region gives: the number, and whether one region contains it. A refusal says no.
#[derive(Clone, Copy, PartialEq, Eq, Debug)]
#[repr(C)]
pub struct Defined {
    pub number: u64,
    pub defined: bool,
}

unsafe extern "C" {
    pub fn lent_start(hart: *mut ConfidentialHart, address: u64, opaque: u64) -> u64;
    pub fn lent_suspend(hart: *mut ConfidentialHart) -> u64;
    pub fn lent_stop(hart: *mut ConfidentialHart) -> u64;
    pub fn lent_wake(hart: *mut ConfidentialHart, address: u64, opaque: u64) -> u64;
    pub fn lent_off(hart: *mut ConfidentialHart) -> u64;
    pub fn lent_add_mmio_region(regions: *mut ConfidentialVmMmioRegion, _: usize, count: u64, base: u64, size: u64) -> Changed;
    pub fn lent_remove_mmio_region(regions: *mut ConfidentialVmMmioRegion, _: usize, count: u64, base: u64, size: u64) -> Changed;
    pub fn lent_is_mmio_region_defined(regions: *const ConfidentialVmMmioRegion, _: usize, count: u64, base: u64, size: u64) -> Defined;
}
