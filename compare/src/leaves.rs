//! The proved leaves, as Rust calls them. Every `unsafe` call lends slices of the lengths that its leaf requires: arrays have them by their type,
//! and `Regions::check` asserts those of the region table. What is written is borrowed alone.
use crate::{HART_WORDS, MOST_REGIONS, QUEUE_WORDS, REGION_WORDS};
use oracle::driver::Command;

#[rustfmt::skip]
unsafe extern "C" {
    fn leaf_is_well_formed(command: *const u64, words: usize) -> bool;
    fn leaf_is_hart_selected(command: *const u64, words: usize, hart: u64) -> bool;
    fn leaf_is_queue_well_formed(queue: *const u64, words: usize) -> bool;
    fn leaf_offer(queue: *mut u64, words: usize, command: *const u64, command_words: usize) -> u64;
    fn leaf_new_region(region: *mut u64, words: usize, start: u64, size: u64) -> u64;
    fn leaf_regions_are_sound(regions: *const u64, words: usize, count: u64) -> bool;
    fn leaf_add(regions: *mut u64, words: usize, count: u64, base: u64, end: u64) -> u64;
    fn leaf_remove(regions: *mut u64, words: usize, count: u64, base: u64, end: u64) -> u64;
    fn leaf_is_mmio_region_defined(regions: *const u64, words: usize, count: u64, base: u64, end: u64) -> bool;
    fn leaf_is_row_well_formed(row: *const u64, words: usize) -> bool;
    fn leaf_dummy(row: *mut u64, words: usize, hardware_hart: u64);
    fn leaf_from_vm_hart_reset(row: *mut u64, words: usize, hart: u64);
    fn leaf_from_vm_hart(row: *mut u64, words: usize, hart: u64, pc: u64, a1: u64, vsatp: u64, vsstatus: u64);
    fn leaf_start(row: *mut u64, words: usize, address: u64, opaque: u64) -> u64;
    fn leaf_suspend(row: *mut u64, words: usize) -> u64;
    fn leaf_stop(row: *mut u64, words: usize) -> u64;
    fn leaf_wake(row: *mut u64, words: usize, address: u64, opaque: u64) -> u64;
    fn leaf_off(row: *mut u64, words: usize) -> u64;
}

fn numbers(command: Command) -> [u64; 6] {
    command.numbers().map(|number| number as u64)
}

pub fn is_well_formed(command: Command) -> bool {
    let command = numbers(command);
    unsafe { leaf_is_well_formed(command.as_ptr(), command.len()) }
}

pub fn is_hart_selected(command: Command, hart: u64) -> bool {
    let command = numbers(command);
    unsafe { leaf_is_hart_selected(command.as_ptr(), command.len(), hart) }
}

/// One hart's queue of commands.
#[derive(Clone, PartialEq, Debug)]
pub struct Queue(pub [u64; QUEUE_WORDS]);

impl Queue {
    pub fn is_well_formed(&self) -> bool {
        unsafe { leaf_is_queue_well_formed(self.0.as_ptr(), QUEUE_WORDS) }
    }

    pub fn offer(&mut self, command: Command) -> u64 {
        let command = numbers(command);
        unsafe { leaf_offer(self.0.as_mut_ptr(), QUEUE_WORDS, command.as_ptr(), command.len()) }
    }
}

/// The number that making a region gives, and its base and end.
pub fn new_region(start: u64, size: u64) -> (u64, [u64; 2]) {
    let mut region = [u64::MAX; REGION_WORDS];
    let number = unsafe { leaf_new_region(region.as_mut_ptr(), REGION_WORDS, start, size) };
    (number, region)
}

/// The region table and its count. What lies past its last place belongs to the caller.
#[derive(Clone, PartialEq, Debug)]
pub struct Regions {
    pub words: Vec<u64>,
    pub count: u64,
}

impl Regions {
    /// Words past the last place, which nobody may read or write.
    pub const PAST: [u64; 3] = [u64::MAX, 7, u64::MAX];

    pub fn new() -> Self {
        let mut words = vec![0; MOST_REGIONS * REGION_WORDS];
        words.extend(Self::PAST);
        Self { words, count: 0 }
    }

    pub fn are_sound(&self) -> bool {
        unsafe { leaf_regions_are_sound(self.words.as_ptr(), self.words.len(), self.count) }
    }

    pub fn add(&mut self, [base, end]: [u64; 2]) -> u64 {
        self.check();
        let number = unsafe { leaf_add(self.words.as_mut_ptr(), self.words.len(), self.count, base, end) };
        self.count += (number == 0) as u64;
        number
    }

    pub fn remove(&mut self, [base, end]: [u64; 2]) {
        self.check();
        self.count = unsafe { leaf_remove(self.words.as_mut_ptr(), self.words.len(), self.count, base, end) };
    }

    pub fn is_mmio_region_defined(&self, [base, end]: [u64; 2]) -> bool {
        self.check();
        unsafe { leaf_is_mmio_region_defined(self.words.as_ptr(), self.words.len(), self.count, base, end) }
    }

    fn check(&self) {
        assert!(self.words.len() >= MOST_REGIONS * REGION_WORDS && self.count <= MOST_REGIONS as u64);
    }
}

impl Default for Regions {
    fn default() -> Self {
        Self::new()
    }
}

/// A hart's row.
#[derive(Clone, Copy, PartialEq, Debug)]
pub struct Row(pub [u64; HART_WORDS]);

impl Row {
    /// A row that something else stood in before.
    const USED: Self = Self([u64::MAX; HART_WORDS]);

    pub fn is_well_formed(&self) -> bool {
        unsafe { leaf_is_row_well_formed(self.0.as_ptr(), HART_WORDS) }
    }

    pub fn dummy(hardware_hart: u64) -> Self {
        let mut row = Self::USED;
        unsafe { leaf_dummy(row.0.as_mut_ptr(), HART_WORDS, hardware_hart) };
        row
    }

    pub fn from_vm_hart_reset(hart: u64) -> Self {
        let mut row = Self::USED;
        unsafe { leaf_from_vm_hart_reset(row.0.as_mut_ptr(), HART_WORDS, hart) };
        row
    }

    pub fn from_vm_hart(hart: u64, pc: u64, a1: u64, vsatp: u64, vsstatus: u64) -> Self {
        let mut row = Self::USED;
        unsafe { leaf_from_vm_hart(row.0.as_mut_ptr(), HART_WORDS, hart, pc, a1, vsatp, vsstatus) };
        row
    }

    pub fn start(&mut self, address: u64, opaque: u64) -> u64 {
        unsafe { leaf_start(self.0.as_mut_ptr(), HART_WORDS, address, opaque) }
    }

    pub fn suspend(&mut self) -> u64 {
        unsafe { leaf_suspend(self.0.as_mut_ptr(), HART_WORDS) }
    }

    pub fn stop(&mut self) -> u64 {
        unsafe { leaf_stop(self.0.as_mut_ptr(), HART_WORDS) }
    }

    pub fn wake(&mut self, address: u64, opaque: u64) -> u64 {
        unsafe { leaf_wake(self.0.as_mut_ptr(), HART_WORDS, address, opaque) }
    }

    pub fn off(&mut self) -> u64 {
        unsafe { leaf_off(self.0.as_mut_ptr(), HART_WORDS) }
    }
}
