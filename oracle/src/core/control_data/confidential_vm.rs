// SPDX-FileCopyrightText: 2023 IBM Corporation
// SPDX-FileContributor: Wojciech Ozga <woz@zurich.ibm.com>, IBM Research - Zurich
// SPDX-License-Identifier: Apache-2.0
// Changed for Oudrameng: locks, secrets, measurements and memory protection are gone. Every change stands in oracle/README.md.
use crate::core::architecture::HartLifecycleState;
use crate::core::control_data::{
    ConfidentialHart, ConfidentialHartRemoteCommand, ConfidentialVmId, ConfidentialVmMmioRegion, HardwareHart,
};
use crate::error::Error;
use alloc::collections::BTreeMap;
use alloc::vec::Vec;

#[derive(Clone, PartialEq, Debug)]
pub struct ConfidentialVm {
    id: ConfidentialVmId,
    confidential_harts: Vec<ConfidentialHart>,
    remote_commands: BTreeMap<usize, Vec<ConfidentialHartRemoteCommand>>,
    allowed_external_interrupts: usize,
    mmio_regions: Vec<ConfidentialVmMmioRegion>,
}

impl ConfidentialVm {
    pub const MAX_NUMBER_OF_HARTS_PER_VM: usize = 1024;
    /// An average number of inter hart requests that can be buffered before being processed.
    const AVG_NUMBER_OF_COMMANDS: usize = 3;
    /// A maximum number of inter hart requests that can be buffered.
    const MAX_NUMBER_OF_COMMANDS: usize = 64;
    /// A maximum number of MMIO regions that a confidential VM can register
    const MAX_NUMBER_OF_MMIO_REGIONS: usize = 1024;

    /// Constructs a new confidential VM.
    ///
    /// # Safety
    ///
    /// The id of the confidential VM must be unique.
    pub fn new(id: ConfidentialVmId, mut confidential_harts: Vec<ConfidentialHart>) -> Self {
        let remote_commands = confidential_harts
            .iter_mut()
            .map(|confidential_hart| {
                confidential_hart.set_confidential_vm_id(id);
                (confidential_hart.confidential_hart_id(), Vec::with_capacity(Self::AVG_NUMBER_OF_COMMANDS))
            })
            .collect();
        Self {
            id,
            confidential_harts,
            remote_commands,
            allowed_external_interrupts: 0,
            mmio_regions: Vec::with_capacity(8),
        }
    }

    pub fn confidential_vm_id(&self) -> ConfidentialVmId {
        self.id
    }
}

/* Heavy context switches */
impl ConfidentialVm {
    /// Assigns a confidential hart of the confidential VM to the hardware hart. The hardware memory isolation mechanism
    /// is reconfigured to enforce memory access control for the confidential VM. Returns error if the confidential VM's
    /// virtual hart has been already stolen or is in the `Stopped` state.
    pub fn steal_confidential_hart(&mut self, confidential_hart_id: usize, hardware_hart: &mut HardwareHart) -> Result<(), Error> {
        ensure!(confidential_hart_id < self.confidential_harts.len(), Error::InvalidHartId())?;
        let confidential_hart = &mut self.confidential_harts[confidential_hart_id];
        // The hypervisor might try to schedule the same confidential hart on different physical harts. We detect it
        // because after a confidential_hart is scheduled for the first time, its token is stolen and the
        // ConfidentialVM is left with a dummy confidential_hart. A dummy confidential hart is a hart not associated
        // with any confidential vm.
        ensure_not!(confidential_hart.is_dummy(), Error::HartAlreadyRunning())?;
        // The hypervisor might try to schedule a confidential hart that has never been started. This is forbidden.
        ensure!(confidential_hart.is_executable(), Error::HartNotExecutable())?;
        // Assign the confidential hart to the hardware hart. The code below this line must not throw an error!
        core::mem::swap(hardware_hart.confidential_hart_mut(), confidential_hart);
        Ok(())
    }

    /// Unassigns a confidential hart from the hardware hart. The confidential hart is stored back in the confidential VM. The dummy hart
    /// that was stored as a placeholder in the confidential VM is given back to the hardware hart.
    pub fn return_confidential_hart(&mut self, hardware_hart: &mut HardwareHart) {
        assert!(!hardware_hart.confidential_hart().is_dummy());
        assert!(Some(self.id) == hardware_hart.confidential_hart().confidential_vm_id());
        let confidential_hart_id = hardware_hart.confidential_hart().confidential_hart_id();
        assert!(self.confidential_harts.len() > confidential_hart_id);
        // Return the confidential hart to the confidential machine.
        core::mem::swap(hardware_hart.confidential_hart_mut(), &mut self.confidential_harts[confidential_hart_id]);
    }
}

/* Interrupt related */
impl ConfidentialVm {
    pub fn allowed_external_interrupts(&self) -> usize {
        self.allowed_external_interrupts
    }

    pub fn allow_external_interrupt(&mut self, external_interrupt: usize) {
        self.allowed_external_interrupts |= external_interrupt;
    }
}

/* Management of MMIO regions */
impl ConfidentialVm {
    pub fn add_mmio_region(&mut self, region: ConfidentialVmMmioRegion) -> Result<(), Error> {
        ensure!(self.mmio_regions.len() < Self::MAX_NUMBER_OF_MMIO_REGIONS, Error::ReachedMaxNumberOfMmioRegions())?;
        ensure!(!self.mmio_regions.iter().any(|x| x.overlaps(&region)), Error::OverlappingMmioRegion())?;
        Ok(self.mmio_regions.push(region))
    }

    pub fn remove_mmio_region(&mut self, region: &ConfidentialVmMmioRegion) {
        self.mmio_regions.retain(|x| !x.overlaps(region));
    }

    pub fn is_mmio_region_defined(&self, region: &ConfidentialVmMmioRegion) -> bool {
        self.mmio_regions.iter().any(|x| x.contains(region))
    }
}

/* Lifecycle related */
impl ConfidentialVm {
    pub fn is_vm_executing(&self) -> bool {
        self.confidential_harts.iter().filter(|hart| hart.is_dummy()).count() == 0
    }

    /// Returns the lifecycle state of the confidential hart
    pub fn confidential_hart_lifecycle_state(&self, confidential_hart_id: usize) -> Result<HartLifecycleState, Error> {
        Ok(self.confidential_harts.get(confidential_hart_id).ok_or(Error::InvalidHartId())?.lifecycle_state().clone())
    }

    /// Transits the confidential hart's lifecycle state to `StartPending`. Returns error if the confidential hart is
    /// not in the `Stopped` state or a confidential hart with the requested id does not exist.
    pub fn start_confidential_hart(&mut self, confidential_hart_id: usize, start_address: usize, opaque: usize) -> Result<(), Error> {
        self.confidential_harts
            .get_mut(confidential_hart_id)
            .ok_or(Error::InvalidHartId())?
            .transition_from_stopped_to_started(start_address, opaque)
    }
}

/* Remote commands */
impl ConfidentialVm {
    /// Queues a request from one confidential hart to another and emits a hardware interrupt to the physical hart that
    /// executes that confidential hart. If the confidential hart is not executing, then no hardware interrupt is
    /// emmited.
    ///
    /// Returns error when 1) a queue that stores the confidential hart's ConfidentialHartRemoteCommands is full, 2) when sending an
    /// IPI failed.
    pub fn broadcast_remote_command(
        &mut self, sender_confidential_hart_id: usize, remote_command: ConfidentialHartRemoteCommand,
    ) -> Result<usize, Error> {
        (0..self.confidential_harts.len())
            .filter(|confidential_hart_id| remote_command.is_hart_selected(*confidential_hart_id))
            .filter(|confidential_hart_id| *confidential_hart_id != sender_confidential_hart_id)
            .map(|confidential_hart_id| {
                let (is_executable, mask) = {
                    let confidential_hart = &self.confidential_harts[confidential_hart_id];
                    (confidential_hart.is_executable(), confidential_hart.hardware_hart_id().and_then(|id| Some(1 << id)).unwrap_or(0))
                };
                if is_executable {
                    self.try_confidential_hart_remote_commands(confidential_hart_id, |ref mut remote_commands| {
                        ensure!(remote_commands.len() < Self::MAX_NUMBER_OF_COMMANDS, Error::ReachedMaxNumberOfRemoteCommands())?;
                        if remote_commands.iter().find(|c| **c == remote_command).is_none() {
                            remote_commands.push(remote_command.clone());
                        }
                        Ok(())
                    })?;
                }
                Ok(mask)
            })
            .try_fold(0, |acc, x: Result<usize, Error>| Ok(acc | x?))
    }

    pub fn try_confidential_hart_remote_commands<F, O>(&mut self, confidential_hart_id: usize, op: O) -> Result<F, Error>
    where O: FnOnce(&mut Vec<ConfidentialHartRemoteCommand>) -> Result<F, Error> {
        op(self.remote_commands.get_mut(&confidential_hart_id).ok_or(Error::InvalidHartId())?)
    }
}

/* Added for Oudrameng: what a comparison looks at and puts in */
impl ConfidentialVm {
    pub fn confidential_harts(&self) -> &[ConfidentialHart] {
        &self.confidential_harts
    }

    pub fn remote_commands(&self, confidential_hart_id: usize) -> &[ConfidentialHartRemoteCommand] {
        &self.remote_commands[&confidential_hart_id]
    }

    pub fn mmio_regions(&self) -> &[ConfidentialVmMmioRegion] {
        &self.mmio_regions
    }

    pub fn confidential_harts_mut(&mut self) -> &mut [ConfidentialHart] {
        &mut self.confidential_harts
    }

    pub fn mmio_regions_mut(&mut self) -> &mut Vec<ConfidentialVmMmioRegion> {
        &mut self.mmio_regions
    }
}
