//! The requests on the tables of one VM.
use crate::answers::done;
use crate::{ConfidentialFlow, ConfidentialHartId, ConfidentialHartRemoteCommand, Error, HardwareHartId, HartLifecycleState, VALUE_WORDS};

/// Calls a proved function on numbers and runs of words.
macro_rules! call {
    ($name:ident($($number:expr),*; $($access:tt $words:expr),*)) => {
        // SAFETY: each run is a slice, borrowed alone where it is written, and the function takes any numbers and any words.
        unsafe { $crate::ffi::$name($($number,)* $($crate::confidential_vm::call!(@ $access $words), $words.len()),*) }
    };
    (@ const $words:expr) => { $words.as_ptr() };
    (@ mut $words:expr) => { $words.as_mut_ptr() };
}
pub(crate) use call;

/// What a VM is set up with: how many harts and hardware harts, the hart that it boots on, and that hart's registers.
#[derive(Clone, Copy, PartialEq, Eq, Debug)]
pub struct Setup {
    pub harts: u64,
    pub hardware: u64,
    pub boot: ConfidentialHartId,
    pub a1: u64,
    pub mepc: u64,
    pub vsatp: u64,
    pub vsstatus: u64,
}

/// The tables of one VM, in lent words: the counts and the allowed mask, home rows, hardware rows, queues and regions. They need `HEAD_WORDS`, n
/// and m times `HART_WORDS`, n times `QUEUE_WORDS` and `MOST_REGIONS` times `REGION_WORDS` words. What lies past these stays as it is.
#[derive(PartialEq, Eq, Debug)]
pub struct ConfidentialVm<'a> {
    pub head: &'a mut [u64],
    pub home: &'a mut [u64],
    pub hardware: &'a mut [u64],
    pub queues: &'a mut [u64],
    pub regions: &'a mut [u64],
}

impl ConfidentialVm<'_> {
    /// Sets up a VM, whatever stood in the tables before. The original's `ConfidentialVm::new`, on lent words.
    pub fn set_up(&mut self, setup: &Setup) -> Result<(), Error> {
        let Setup { harts, hardware, boot, a1, mepc, vsatp, vsstatus } = *setup;
        done(call!(oudrameng_new(harts, hardware, boot.0, a1, mepc, vsatp, vsstatus;
            mut self.head, mut self.home, mut self.hardware, mut self.queues, mut self.regions)))
    }

    /// Whether the tables are sound. Where they are not, every request but a setup is refused.
    pub fn are_tables_sound(&self) -> bool {
        call!(oudrameng_are_tables_sound(;
            const self.head, const self.home, const self.hardware, const self.queues, const self.regions))
            == 1
    }

    /// Assigns a hart to a hardware hart, and gives the mask of allowed external interrupts.
    pub fn steal_confidential_hart(&mut self, hart: ConfidentialHartId, on: HardwareHartId) -> Result<u64, Error> {
        let mut value = [0; VALUE_WORDS];
        let number = call!(oudrameng_steal_confidential_hart(hart.0, on.0;
            const self.head, mut self.home, mut self.hardware, const self.queues, const self.regions, mut value));
        done(number).map(|()| value[0])
    }

    /// Takes the hart of a hardware hart home.
    pub fn return_confidential_hart(&mut self, on: HardwareHartId) -> Result<(), Error> {
        done(call!(oudrameng_return_confidential_hart(on.0;
            const self.head, mut self.home, mut self.hardware, const self.queues, const self.regions)))
    }

    /// Joins bits to the mask of allowed external interrupts.
    pub fn allow_external_interrupt(&mut self, bits: u64) -> Result<(), Error> {
        done(call!(oudrameng_allow_external_interrupt(bits;
            mut self.head, const self.home, const self.hardware, const self.queues, const self.regions)))
    }

    /// Starts a stopped hart that is at home.
    pub fn start_confidential_hart(&mut self, hart: ConfidentialHartId, address: u64, opaque: u64) -> Result<(), Error> {
        done(call!(oudrameng_start_confidential_hart(hart.0, address, opaque;
            const self.head, mut self.home, const self.hardware, const self.queues, const self.regions)))
    }

    /// The lifecycle of a hart. A stolen hart counts as Started.
    pub fn confidential_hart_lifecycle_state(&self, hart: ConfidentialHartId) -> Result<HartLifecycleState, Error> {
        let mut value = [0; VALUE_WORDS];
        let number = call!(oudrameng_confidential_hart_lifecycle_state(hart.0;
            const self.head, const self.home, const self.hardware, const self.queues, const self.regions, mut value));
        done(number).map(|()| HartLifecycleState::of_number(value[0]))
    }

    /// Whether every hart is at home. The name is the original's.
    pub fn is_vm_executing(&self) -> Result<bool, Error> {
        let mut value = [0; VALUE_WORDS];
        let number = call!(oudrameng_is_vm_executing(;
            const self.head, const self.home, const self.hardware, const self.queues, const self.regions, mut value));
        done(number).map(|()| value[0] == 1)
    }

    /// Queues a command for every hart that it selects but the sender, and gives the mask of hardware harts to interrupt. At a full queue it is
    /// refused, and lower harts keep the command.
    pub fn broadcast_remote_command(&mut self, sender: u64, command: &ConfidentialHartRemoteCommand) -> Result<u64, Error> {
        let mut value = [0; VALUE_WORDS];
        let [kind, mask, base, start, size, tag] = command.numbers();
        let number = call!(oudrameng_broadcast_remote_command(sender, kind, mask, base, start, size, tag;
            const self.head, const self.home, const self.hardware, mut self.queues, const self.regions, mut value));
        done(number).map(|()| value[0])
    }

    /// Adds the region of so many bytes from a base.
    pub fn add_mmio_region(&mut self, base: u64, size: u64) -> Result<(), Error> {
        done(call!(oudrameng_add_mmio_region(base, size;
            mut self.head, const self.home, const self.hardware, const self.queues, mut self.regions)))
    }

    /// Removes every region that overlaps this one.
    pub fn remove_mmio_region(&mut self, base: u64, size: u64) -> Result<(), Error> {
        done(call!(oudrameng_remove_mmio_region(base, size;
            mut self.head, const self.home, const self.hardware, const self.queues, mut self.regions)))
    }

    /// Whether one region contains this one.
    pub fn is_mmio_region_defined(&self, base: u64, size: u64) -> Result<bool, Error> {
        let mut value = [0; VALUE_WORDS];
        let number = call!(oudrameng_is_mmio_region_defined(base, size;
            const self.head, const self.home, const self.hardware, const self.queues, const self.regions, mut value));
        done(number).map(|()| value[0] == 1)
    }

    /// The requests of the hart that a hardware hart holds.
    pub fn confidential_flow(&mut self, on: HardwareHartId) -> ConfidentialFlow<'_> {
        let Self { head, home, hardware, queues, regions } = self;
        ConfidentialFlow { on, vm: ConfidentialVm { head, home, hardware, queues, regions } }
    }
}
