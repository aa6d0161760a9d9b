//! The requests of a hart that runs on a hardware hart.
use crate::answers::done;
use crate::confidential_vm::call;
use crate::{
    ConfidentialHartId, ConfidentialHartRemoteCommand, ConfidentialVm, EFFECT_WORDS, Error, HardwareHartId, REPLY_VALUE_WORDS, Reply,
    ResumableOperation, Resumed,
};

/// The tables of a VM, and the hardware hart whose hart asks.
#[derive(PartialEq, Eq, Debug)]
pub struct ConfidentialFlow<'a> {
    pub(crate) on: HardwareHartId,
    pub(crate) vm: ConfidentialVm<'a>,
}

impl ConfidentialFlow<'_> {
    /// Suspends the hart.
    pub fn suspend_confidential_hart(&mut self) -> Result<(), Error> {
        let Self { on, vm } = self;
        done(call!(oudrameng_suspend_confidential_hart(on.0;
            const vm.head, const vm.home, mut vm.hardware, const vm.queues, const vm.regions)))
    }

    /// Stops the hart.
    pub fn stop_confidential_hart(&mut self) -> Result<(), Error> {
        let Self { on, vm } = self;
        done(call!(oudrameng_stop_confidential_hart(on.0;
            const vm.head, const vm.home, mut vm.hardware, const vm.queues, const vm.regions)))
    }

    /// Wakes the suspended hart.
    pub fn resume_confidential_hart(&mut self, address: u64, opaque: u64) -> Result<(), Error> {
        let Self { on, vm } = self;
        done(call!(oudrameng_resume_confidential_hart(on.0, address, opaque;
            const vm.head, const vm.home, mut vm.hardware, const vm.queues, const vm.regions)))
    }

    /// Powers the hart off.
    pub fn shutdown_confidential_hart(&mut self) -> Result<(), Error> {
        let Self { on, vm } = self;
        done(call!(oudrameng_shutdown_confidential_hart(on.0;
            const vm.head, const vm.home, mut vm.hardware, const vm.queues, const vm.regions)))
    }

    /// Sets the operation that the hart waits for.
    pub fn set_resumable_operation(&mut self, operation: &ResumableOperation) -> Result<(), Error> {
        let Self { on, vm } = self;
        let ResumableOperation { kind, x, y } = *operation;
        done(call!(oudrameng_set_resumable_operation(on.0, kind, x, y;
            const vm.head, const vm.home, mut vm.hardware, const vm.queues, const vm.regions)))
    }

    /// Sends a command. The hart itself does it first if it is selected: that is one effect record. The answer is the mask of hardware harts to
    /// interrupt.
    pub fn broadcast_remote_command(&mut self, command: &ConfidentialHartRemoteCommand, effects: &mut [u64]) -> Reply<u64> {
        let Self { on, vm } = self;
        let mut value = [0; REPLY_VALUE_WORDS];
        let [kind, mask, base, start, size, tag] = command.numbers();
        let number = call!(oudrameng_flow_broadcast_remote_command(on.0, kind, mask, base, start, size, tag;
            const vm.head, const vm.home, mut vm.hardware, mut vm.queues, const vm.regions, mut effects, mut value));
        Reply { did: value[0] as usize, answer: done(number).map(|()| value[1]) }
    }

    /// Does every command that waits for the hart, an effect record for each, and gives how many they were. It asks for room for 64 records.
    pub fn process_confidential_hart_remote_commands(&mut self, effects: &mut [u64]) -> Reply<u64> {
        let Self { on, vm } = self;
        let mut value = [0; REPLY_VALUE_WORDS];
        let number = call!(oudrameng_process_confidential_hart_remote_commands(on.0;
            const vm.head, const vm.home, mut vm.hardware, mut vm.queues, const vm.regions, mut effects, mut value));
        Reply { did: value[0] as usize, answer: done(number).map(|()| value[1]) }
    }

    /// Does every command that waits for the hart, then says how it goes on, and takes the operation that it goes on with.
    pub fn resume_confidential_hart_execution(&mut self, effects: &mut [u64]) -> Reply<Resumed> {
        let Self { on, vm } = self;
        let mut value = [0; REPLY_VALUE_WORDS];
        let number = call!(oudrameng_resume_confidential_hart_execution(on.0;
            const vm.head, const vm.home, mut vm.hardware, mut vm.queues, const vm.regions, mut effects, mut value));
        let [did, values @ ..] = value;
        Reply { did: did as usize, answer: done(number).map(|()| Resumed::of_values(values)) }
    }
}

/// A command that a hart did.
#[derive(Clone, Copy, PartialEq, Eq, Debug)]
pub struct Effect {
    pub hart: ConfidentialHartId,
    pub command: ConfidentialHartRemoteCommand,
}

/// The first effect records of a room, as many as a `Reply` says; no more than the room has.
pub fn effects(room: &[u64], did: usize) -> impl Iterator<Item = Effect> {
    room.as_chunks::<EFFECT_WORDS>().0.iter().take(did).map(|&[hart, ref command @ ..]| Effect {
        hart: ConfidentialHartId(hart),
        command: ConfidentialHartRemoteCommand::of_numbers(*command),
    })
}
