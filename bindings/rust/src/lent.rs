//! The changes of a hart and the regions on records that the caller keeps: one hart's record, or a run of region records with its count. No
//! tables stand around a record or a run, so each is judged alone, and none of these is a request to a VM.
use crate::answers::done;
use crate::{Error, REGISTERS, ffi};

/// Calls a proved function on a record or a run.
macro_rules! call {
    ($name:ident($($lent:expr),*)) => {
        // SAFETY: the record or the run is borrowed, alone where it is written, and the function takes any records and any numbers.
        unsafe { ffi::$name($($lent),*) }
    };
}

/// A hart's record, of the parts that a row has as words: `vm` is 1, or 0 of a hardware hart's dummy, and the operation has two numbers. It
/// is as docs/TABLES.md has a row, with any number in `id`; another is refused as `Error::TablesNotSound`.
#[derive(Clone, Copy, PartialEq, Eq, Debug)]
#[repr(C)]
pub struct ConfidentialHart {
    pub vm: u64,
    pub id: u64,
    pub lifecycle: u64,
    pub operation: u64,
    pub x: u64,
    pub y: u64,
    pub registers: [u64; REGISTERS],
}

impl ConfidentialHart {
    /// Starts a stopped hart.
    pub fn transition_from_stopped_to_started(&mut self, address: u64, opaque: u64) -> Result<(), Error> {
        done(call!(lent_start(self, address, opaque)))
    }

    /// Suspends a started hart.
    pub fn transition_from_started_to_suspended(&mut self) -> Result<(), Error> {
        done(call!(lent_suspend(self)))
    }

    /// Stops a started hart.
    pub fn transition_from_started_to_stopped(&mut self) -> Result<(), Error> {
        done(call!(lent_stop(self)))
    }

    /// Wakes a suspended hart.
    pub fn transition_from_suspended_to_started(&mut self, address: u64, opaque: u64) -> Result<(), Error> {
        done(call!(lent_wake(self, address, opaque)))
    }

    /// Powers a hart off, whatever its lifecycle. The original's gives nothing: a dummy is refused here.
    pub fn transition_to_shutdown(&mut self) -> Result<(), Error> {
        done(call!(lent_off(self)))
    }
}

/// A region's record: its base and one past its end. An unused record is 0.
#[derive(Clone, Copy, PartialEq, Eq, Debug, Default)]
#[repr(C)]
pub struct ConfidentialVmMmioRegion {
    pub base: u64,
    pub end: u64,
}

/// A lent run of region records, and how many of them stand, from the first on. It needs `MOST_REGIONS` records. What lies past these stays as
/// it is.
#[derive(PartialEq, Eq, Debug)]
pub struct MmioRegions<'a> {
    pub records: &'a mut [ConfidentialVmMmioRegion],
    pub count: &'a mut u64,
}

impl MmioRegions<'_> {
    /// Adds the region of so many bytes from a base, after those that stand.
    pub fn add_mmio_region(&mut self, base: u64, size: u64) -> Result<(), Error> {
        let changed = call!(lent_add_mmio_region(self.records.as_mut_ptr(), self.records.len(), *self.count, base, size));
        *self.count = changed.count;
        done(changed.number)
    }

    /// Removes every region that overlaps this one. The others close up in their order.
    pub fn remove_mmio_region(&mut self, base: u64, size: u64) -> Result<(), Error> {
        let changed = call!(lent_remove_mmio_region(self.records.as_mut_ptr(), self.records.len(), *self.count, base, size));
        *self.count = changed.count;
        done(changed.number)
    }

    /// Whether one region contains this one.
    pub fn is_mmio_region_defined(&self, base: u64, size: u64) -> Result<bool, Error> {
        let asked = call!(lent_is_mmio_region_defined(self.records.as_ptr(), self.records.len(), *self.count, base, size));
        done(asked.number).map(|()| asked.defined)
    }
}
