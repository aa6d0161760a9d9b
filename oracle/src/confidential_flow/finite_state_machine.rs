// SPDX-FileCopyrightText: 2023 IBM Corporation
// SPDX-FileContributor: Wojciech Ozga <woz@zurich.ibm.com>, IBM Research - Zurich
// SPDX-License-Identifier: Apache-2.0
// Changed for Oudrameng: trap routing, context switches and interrupt sending are gone, and a function that never returned gives an
// answer. Every change stands in oracle/README.md.
use crate::confidential_flow::Resumed;
use crate::core::architecture::HartLifecycleState;
use crate::core::control_data::{
    ConfidentialHart, ConfidentialHartRemoteCommand, ConfidentialVm, ConfidentialVmId, ControlDataStorage, HardwareHart,
    ResumableOperation,
};
use crate::error::Error;

/// Ensures control flow integrity within the `confidential flow` part of the finite state machine (FSM) of the security
/// monitor.
///
/// The ConfidentialFlow has an ownership of HypervisorHart and ConfidentialHart assigned to this physical hart. It
/// encapsulates both HypervisorHart and ConfidentialHart, so the only way to access their confidential state is through
/// ConfidentialFlow's public functions.
///
/// # Guarantees
///
/// * A confidential hart (not a dummy one!) is assigned to the hardware hart.
/// * The confidential VM that logically owns the confidential hart exists in the control data.
pub struct ConfidentialFlow<'a> {
    hardware_hart: &'a mut HardwareHart,
}

impl<'a> ConfidentialFlow<'a> {
    const DUMMY_HART_ERROR_MSG: &'static str = "Bug: Found dummy hart instead of a confidential hart";

    /// Stands for the routing of a trap: the flow of the confidential hart on this hardware hart. It asserts nothing, so that each
    /// function shows its own asserts.
    pub fn of_hardware_hart(hardware_hart: &'a mut HardwareHart) -> Self {
        Self { hardware_hart }
    }

    /// Creates an instance of the confidential flow for the requested confidential hart. Returns error if it cannot steal the confidental
    /// hart, i.e., the confidential hart does not exist or it has been already assigned another physical hart.
    pub fn enter_from_non_confidential_flow(
        hardware_hart: &'a mut HardwareHart, confidential_vm_id: ConfidentialVmId, confidential_hart_id: usize,
    ) -> Result<(usize, Self), (&'a mut HardwareHart, Error)> {
        assert!(hardware_hart.confidential_hart().is_dummy());
        match ControlDataStorage::try_confidential_vm(confidential_vm_id, |confidential_vm| {
            confidential_vm.steal_confidential_hart(confidential_hart_id, hardware_hart)?;
            Ok(confidential_vm.allowed_external_interrupts())
        }) {
            Ok(allowed_external_interrupts) => {
                Ok((allowed_external_interrupts, Self { hardware_hart }))
            }
            Err(error) => Err((hardware_hart, error)),
        }
    }

    /// Moves in the finite state machine (FSM) from the confidential flow into non-confidential flow.
    pub fn into_non_confidential_flow(self) {
        let _ = ControlDataStorage::try_confidential_vm(self.confidential_vm_id(), |confidential_vm| {
            Ok(confidential_vm.return_confidential_hart(self.hardware_hart))
        })
        // Below unwrap is safe because we are in the confidential flow that guarantees that the confidential VM with
        // the given id exists in the control data.
        .unwrap();
    }

    /// Resumes execution of the confidential hart after the confidential hart was not running on any physical hart.
    /// This is an entry point to the confidential flow from the non-confidential flow.
    pub fn resume_confidential_hart_execution(mut self) -> Resumed {
        // During the time when this confidential hart was not running, other confidential harts could have sent it
        // `remote commands`. We must process them before resuming confidential hart's execution.
        self.process_confidential_hart_remote_commands();

        // It might have happened, that this confidential hart has been shutdown when processing an IPI. I.e., there was
        // an IPI from other confidential hart that requested this confidential hart to shutdown. If this had happened, we
        // cannot resume this confidential hart anymore. We must exit to the hypervisor and inform it about it.
        if self.confidential_hart().lifecycle_state() == &HartLifecycleState::PoweredOff {
            return Resumed::Off;
        }

        // One of the reasons why this confidential hart was not running is that it could have sent a request (e.g., a hypercall or MMIO
        // load) to the hypervisor. We must handle the response or resume confidential hart's execution.
        match self.confidential_hart_mut().take_resumable_operation() {
            Some(operation) => Resumed::Operation(operation),
            None => Resumed::Run,
        }
    }
}

// ConfidentialFlow implementation that supports inter hart requests, including IPIs
impl<'a> ConfidentialFlow<'a> {
    /// Broadcasts the inter hart request to confidential harts of the currently executing confidential VM. Returns error if sending an IPI
    /// to other confidential hart failed or if there is too many pending IPI queued.
    pub fn broadcast_remote_command(
        &mut self, confidential_vm: &mut ConfidentialVm, confidential_hart_remote_command: ConfidentialHartRemoteCommand,
    ) -> Result<usize, Error> {
        let sender_confidential_hart_id = self.hardware_hart.confidential_hart().confidential_hart_id();
        // check if the remote command is also dedicated for the currently executing confidential hart
        if confidential_hart_remote_command.is_hart_selected(sender_confidential_hart_id) {
            self.hardware_hart.confidential_hart_mut().execute(&confidential_hart_remote_command);
        }
        // For the time-being, we rely on the OpenSBI's implementation of broadcasting IPIs to hardware harts.
        let hart_mask = confidential_vm.broadcast_remote_command(sender_confidential_hart_id, confidential_hart_remote_command)?;
        Ok(hart_mask)
    }

    /// Processes pending requests from other confidential harts by applying the corresponding state transformation to
    /// this confidential hart.
    ///
    /// This function must only be called when the hypervisor requested resume of confidential hart's execution or when
    /// a hardware hart executing a confidential hart is interrupted with the inter-processor-interrupt (IPI).
    pub fn process_confidential_hart_remote_commands(&mut self) -> bool {
        let mut requests_processed = false;
        ControlDataStorage::try_confidential_vm(self.confidential_vm_id(), |confidential_vm| {
            confidential_vm.try_confidential_hart_remote_commands(
                self.confidential_hart_id(),
                |ref mut confidential_hart_remote_commands| {
                    confidential_hart_remote_commands.drain(..).for_each(|confidential_hart_remote_command| {
                        // The confidential flow has an ownership of the confidential hart because the confidential hart
                        // is assigned to the hardware hart.
                        self.confidential_hart_mut().execute(&confidential_hart_remote_command);
                        requests_processed = true;
                    });
                    Ok(())
                },
            )
        })
        // below unwrap never panics because 1) the confidential_vm_id and confidential_hart_id are valid since we are in the
        // confidential flow of the finite state machine (FSM) that guarantees it and 2) the processing of inter hart
        // requests always succeeds.
        .unwrap();
        requests_processed
    }
}

// ConfidentialFlow implementation that supports optional hart lifecycle transitions.
impl<'a> ConfidentialFlow<'a> {
    /// Delegates the state transition to the confidential hart. The confidential hart is intentionally encapsulated to prevent access to it
    /// other than via the ControlFlow.
    pub fn suspend_confidential_hart(&mut self) -> Result<(), Error> {
        self.confidential_hart_mut().transition_from_started_to_suspended()
    }

    /// Delegates the state transition to the confidential hart. The confidential hart is intentionally encapsulated to prevent access to it
    /// other than via the ControlFlow.
    pub fn stop_confidential_hart(&mut self) -> Result<(), Error> {
        self.confidential_hart_mut().transition_from_started_to_stopped()
    }

    /// Delegates the state transition to the confidential hart. The confidential hart is intentionally encapsulated to prevent access to it
    /// other than via the ControlFlow.
    pub fn resume_confidential_hart(&mut self, start_address: usize, opaque: usize) -> Result<(), Error> {
        self.confidential_hart_mut().transition_from_suspended_to_started(start_address, opaque)
    }

    /// Delegates the state transition to the confidential hart. The confidential hart is intentionally encapsulated to prevent access to it
    /// other than via the ControlFlow.
    pub fn shutdown_confidential_hart(&mut self) {
        self.confidential_hart_mut().transition_to_shutdown();
    }
}

impl<'a> ConfidentialFlow<'a> {
    pub fn set_resumable_operation(mut self, request: ResumableOperation) -> Self {
        self.confidential_hart_mut().set_resumable_operation(request);
        self
    }

    pub fn confidential_vm_id(&self) -> ConfidentialVmId {
        self.confidential_hart().confidential_vm_id().expect(Self::DUMMY_HART_ERROR_MSG)
    }

    fn confidential_hart_id(&self) -> usize {
        self.confidential_hart().confidential_hart_id()
    }

    fn confidential_hart_mut(&mut self) -> &mut ConfidentialHart {
        self.hardware_hart.confidential_hart_mut()
    }

    fn confidential_hart(&self) -> &ConfidentialHart {
        self.hardware_hart.confidential_hart()
    }
}
