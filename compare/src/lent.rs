//! The proved functions on lent records, by the package `oudrameng`: a hart's record made of a row, and the regions as a run of records with its
//! count.
use crate::entries::unvalued;
use crate::leaves::Row;
pub use oudrameng::ffi::Defined;
pub use oudrameng::{ConfidentialHart, ConfidentialVmMmioRegion};
use oudrameng::{Error, MmioRegions};

impl From<Row> for ConfidentialHart {
    fn from(Row([vm, id, lifecycle, operation, x, y, registers @ ..]): Row) -> Self {
        Self { vm, id, lifecycle, operation, x, y, registers }
    }
}

impl From<ConfidentialHart> for Row {
    fn from(hart: ConfidentialHart) -> Self {
        let ConfidentialHart { vm, id, lifecycle, operation, x, y, registers: [a0, a1, mepc, vsatp, mstatus, vsstatus] } = hart;
        Self([vm, id, lifecycle, operation, x, y, a0, a1, mepc, vsatp, mstatus, vsstatus])
    }
}

/// A run of region records, of any length, and how many of them are said to stand.
#[derive(Clone, PartialEq, Debug)]
pub struct Run {
    pub records: Vec<ConfidentialVmMmioRegion>,
    pub count: u64,
}

impl Run {
    fn lend(&mut self) -> MmioRegions<'_> {
        MmioRegions { records: &mut self.records, count: &mut self.count }
    }

    pub fn add(&mut self, base: u64, size: u64) -> u64 {
        unvalued(self.lend().add_mmio_region(base, size))
    }

    pub fn remove(&mut self, base: u64, size: u64) -> u64 {
        unvalued(self.lend().remove_mmio_region(base, size))
    }

    /// What the package gives, written as the C function writes it.
    pub fn is_mmio_region_defined(&mut self, base: u64, size: u64) -> Defined {
        let asked = self.lend().is_mmio_region_defined(base, size);
        Defined { number: asked.map_or_else(Error::number, |_| 0), defined: asked.unwrap_or(false) }
    }

    /// The words of the records, as a table over plain numbers has them.
    pub fn words(&self) -> Vec<u64> {
        self.records.iter().flat_map(|region| [region.base, region.end]).collect()
    }
}
