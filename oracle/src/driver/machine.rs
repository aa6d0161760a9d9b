//! One VM and its hardware harts: each request is checked for what document 01 adds, then done by the Rust.
use crate::confidential_flow::{ConfidentialFlow, Resumed};
use crate::core::architecture::HartLifecycleState;
use crate::core::architecture::riscv::sbi::NaclSharedMemory;
use crate::core::control_data::{
    ConfidentialHart, ConfidentialHartRemoteCommand, ConfidentialVm, ConfidentialVmId, ConfidentialVmMmioRegion, ControlDataStorage,
    HardwareHart, ResumableOperation,
};
use crate::core::memory_layout::ConfidentialVmPhysicalAddress;
use crate::driver::{Command, Request};
use crate::effects::{self, Effect};
use crate::error::Error;
use std::cell::Cell;
use std::fmt::{Display, Formatter};
use std::panic::{AssertUnwindSafe, catch_unwind, resume_unwind, set_hook, take_hook};
use std::sync::Once;

/// What is answered, after the effects.
#[derive(Clone, PartialEq, Debug)]
pub enum Answer {
    /// 0 alone.
    Done,
    /// 0 and a mask of interrupts or of hardware harts.
    Mask(usize),
    /// 0 and a lifecycle state.
    State(usize),
    /// 0 and the number of commands done.
    Count(usize),
    /// 0 and 1 for yes or 0 for no.
    Yes(bool),
    /// 0 and what the hart does next.
    Off,
    Operation(usize, usize, usize),
    Run,
    /// A number other than 0, alone.
    Refused(usize),
    /// The Rust panicked: document 01 decides, and this is its number.
    Panic(usize),
}

/// A request's effects and its answer.
#[derive(Clone, PartialEq, Debug)]
pub struct Outcome {
    pub did: Vec<Effect>,
    pub answer: Answer,
}

impl Outcome {
    fn refused(number: usize) -> Self {
        Self { did: Vec::new(), answer: Answer::Refused(number) }
    }
}

/// The printed lines, each with its line end.
impl Display for Outcome {
    fn fmt(&self, f: &mut Formatter<'_>) -> std::fmt::Result {
        for effect in &self.did {
            let [kind, mask, base, start, size, tag] = Command::of_remote_command(&effect.command).numbers();
            writeln!(f, "did\t{}\t{kind}\t{mask}\t{base}\t{start}\t{size}\t{tag}", effect.confidential_hart_id)?;
        }
        match self.answer {
            Answer::Done => writeln!(f, "0"),
            Answer::Mask(number) | Answer::State(number) | Answer::Count(number) => writeln!(f, "0\t{number}"),
            Answer::Yes(yes) => writeln!(f, "0\t{}", yes as usize),
            Answer::Off => writeln!(f, "0\toff"),
            Answer::Operation(kind, x, y) => writeln!(f, "0\top\t{kind}\t{x}\t{y}"),
            Answer::Run => writeln!(f, "0\trun"),
            Answer::Refused(number) => writeln!(f, "{number}"),
            Answer::Panic(number) => writeln!(f, "panic\t{number}"),
        }
    }
}

/// All that a request may change.
#[derive(Clone, PartialEq, Debug)]
pub struct Tables {
    pub confidential_vm: Option<ConfidentialVm>,
    pub hardware_harts: Vec<HardwareHart>,
}

/// The VM, which stands in the `ControlDataStorage` of this thread, and the hardware harts. There is one machine a thread.
pub struct Machine {
    most_harts: usize,
    most_hardware_harts: usize,
    hardware_harts: Vec<HardwareHart>,
}

impl Machine {
    pub const VM: usize = 1;
    const MOST_HARDWARE_HARTS: usize = 64;

    /// The tables of the trace program.
    pub fn new() -> Self {
        Self::with_room(8, 4)
    }

    pub fn with_room(most_harts: usize, most_hardware_harts: usize) -> Self {
        keep_caught_panics_quiet();
        ControlDataStorage::store(None);
        Self { most_harts, most_hardware_harts, hardware_harts: Vec::new() }
    }

    /// A line of a trace, without its line end.
    pub fn line(&mut self, line: &[u8]) -> Outcome {
        match Request::parse(line) {
            Some(request) if self.is_set_up() || matches!(request, Request::Setup { .. }) => self.perform(&request),
            _ => Outcome::refused(20),
        }
    }

    pub fn perform(&mut self, request: &Request) -> Outcome {
        if let Err(number) = self.added_checks(request) {
            return Outcome::refused(number);
        }
        let waiting = self.waiting(request);
        let result = self.undone_on_panic(|machine| machine.run(request));
        let did = effects::take();
        match result {
            Some(Ok(Done::Answer(answer))) => Outcome { did, answer },
            Some(Ok(Done::Processed(processed))) => {
                assert_eq!((processed, did.len()), (waiting != 0, waiting), "the Rust did what waited, and says so");
                Outcome { did, answer: Answer::Count(waiting) }
            }
            Some(Err(error)) => Outcome { did, answer: Answer::Refused(number_of(error)) },
            None => Outcome { did: Vec::new(), answer: Answer::Panic(asserted(request)) },
        }
    }

    /// How many commands wait for the hart that a process is for.
    fn waiting(&self, request: &Request) -> usize {
        match *request {
            Request::Process { hardware_hart } if !self.on(hardware_hart).is_dummy() => {
                self.queue(self.on(hardware_hart).confidential_hart_id()).map_or(0, |queue| queue.len())
            }
            _ => 0,
        }
    }

    /// What the Rust gives back, or nothing where it panics; then the tables are as they were.
    fn undone_on_panic<F>(&mut self, run: impl FnOnce(&mut Self) -> F) -> Option<F> {
        let before = self.tables();
        let result = caught(|| run(self));
        if result.is_none() {
            self.put_back(before);
        }
        result
    }

    /// Makes the tables what they were at another time, or what a comparison wants them to be.
    pub fn put_back(&mut self, tables: Tables) {
        ControlDataStorage::store(tables.confidential_vm);
        self.hardware_harts = tables.hardware_harts;
    }

    /// The checks that the Rust does not make, in document 01's order. 16 is among them only where the Rust does not assert it.
    fn added_checks(&self, request: &Request) -> Result<(), usize> {
        let check = |holds: bool, number: usize| if holds { Ok(()) } else { Err(number) };
        match *request {
            Request::Setup { harts, hardware_harts, boot, .. } => {
                check((1..=ConfidentialVm::MAX_NUMBER_OF_HARTS_PER_VM).contains(&harts), 18)?;
                check((1..=Self::MOST_HARDWARE_HARTS).contains(&hardware_harts) && boot < harts, 18)?;
                check(harts <= self.most_harts && hardware_harts <= self.most_hardware_harts, 13)
            }
            Request::Await { hardware_hart, kind, x, y } => {
                check(operation(kind, x, y).is_some(), 19)?;
                self.check_hardware_hart(hardware_hart)?;
                check(!self.hardware_harts[hardware_hart].confidential_hart().is_dummy(), 16)
            }
            Request::Broadcast { hardware_hart, command } => {
                check(command.to_remote_command().is_some(), 19)?;
                self.check_hardware_hart(hardware_hart)?;
                check(!self.hardware_harts[hardware_hart].confidential_hart().is_dummy(), 16)
            }
            Request::Send { command, .. } => check(command.to_remote_command().is_some(), 19),
            Request::Add { base, size } | Request::Remove { base, size } | Request::Defined { base, size } => {
                check(base.checked_add(size).is_some(), 11)
            }
            Request::Steal { hardware_hart, .. }
            | Request::Return { hardware_hart }
            | Request::Suspend { hardware_hart }
            | Request::Stop { hardware_hart }
            | Request::Wake { hardware_hart, .. }
            | Request::Off { hardware_hart }
            | Request::Process { hardware_hart }
            | Request::Resume { hardware_hart } => self.check_hardware_hart(hardware_hart),
            Request::Start { .. } | Request::Status { .. } | Request::Allow { .. } | Request::Home => Ok(()),
        }
    }

    fn check_hardware_hart(&self, hardware_hart: usize) -> Result<(), usize> {
        if hardware_hart < self.hardware_harts.len() { Ok(()) } else { Err(14) }
    }

    /// The Rust's part.
    fn run(&mut self, request: &Request) -> Result<Done, Error> {
        let answer = match *request {
            Request::Setup { harts, hardware_harts, boot, a1, mepc, vsatp, vsstatus } => {
                let confidential_harts = (0..harts)
                    .map(|id| {
                        if id == boot {
                            let fdt_address = ConfidentialVmPhysicalAddress::new(a1)?;
                            Ok(ConfidentialHart::from_vm_hart(id, mepc, &fdt_address, &NaclSharedMemory { vsatp, vsstatus }))
                        } else {
                            Ok(ConfidentialHart::from_vm_hart_reset(id))
                        }
                    })
                    .collect::<Result<Vec<_>, Error>>()?;
                ControlDataStorage::store(Some(ConfidentialVm::new(ConfidentialVmId::new(Self::VM), confidential_harts)));
                self.hardware_harts = (0..hardware_harts).map(HardwareHart::init).collect();
                Answer::Done
            }
            Request::Steal { hart, hardware_hart } => {
                let (allowed_external_interrupts, _) = ConfidentialFlow::enter_from_non_confidential_flow(
                    &mut self.hardware_harts[hardware_hart],
                    ConfidentialVmId::new(Self::VM),
                    hart,
                )
                .map_err(|(_, error)| error)?;
                Answer::Mask(allowed_external_interrupts)
            }
            Request::Return { hardware_hart } => {
                self.flow(hardware_hart).into_non_confidential_flow();
                Answer::Done
            }
            Request::Start { hart, address, opaque } => {
                self.vm(|vm| vm.start_confidential_hart(hart, address, opaque))?;
                Answer::Done
            }
            Request::Suspend { hardware_hart } => {
                self.flow(hardware_hart).suspend_confidential_hart()?;
                Answer::Done
            }
            Request::Stop { hardware_hart } => {
                self.flow(hardware_hart).stop_confidential_hart()?;
                Answer::Done
            }
            Request::Wake { hardware_hart, address, opaque } => {
                self.flow(hardware_hart).resume_confidential_hart(address, opaque)?;
                Answer::Done
            }
            Request::Off { hardware_hart } => {
                self.flow(hardware_hart).shutdown_confidential_hart();
                Answer::Done
            }
            Request::Status { hart } => Answer::State(state_number(&self.vm(|vm| vm.confidential_hart_lifecycle_state(hart))?)),
            Request::Await { hardware_hart, kind, x, y } => {
                self.flow(hardware_hart).set_resumable_operation(operation(kind, x, y).expect("checked before"));
                Answer::Done
            }
            Request::Process { hardware_hart } => {
                return Ok(Done::Processed(self.flow(hardware_hart).process_confidential_hart_remote_commands()));
            }
            Request::Resume { hardware_hart } => match self.flow(hardware_hart).resume_confidential_hart_execution() {
                Resumed::Off => Answer::Off,
                Resumed::Operation(operation) => {
                    let [kind, x, y] = operation_numbers(&operation);
                    Answer::Operation(kind, x, y)
                }
                Resumed::Run => Answer::Run,
            },
            Request::Broadcast { hardware_hart, command } => {
                let mut flow = self.flow(hardware_hart);
                let command = remote_command(command);
                Answer::Mask(ControlDataStorage::try_confidential_vm(ConfidentialVmId::new(Self::VM), |confidential_vm| {
                    flow.broadcast_remote_command(confidential_vm, command)
                })?)
            }
            Request::Send { sender, command } => Answer::Mask(self.vm(|vm| vm.broadcast_remote_command(sender, remote_command(command)))?),
            Request::Allow { bits } => {
                self.vm(|vm| {
                    vm.allow_external_interrupt(bits);
                    Ok(())
                })?;
                Answer::Done
            }
            Request::Add { base, size } => {
                self.vm(|vm| vm.add_mmio_region(ConfidentialVmMmioRegion::new(base, size)?))?;
                Answer::Done
            }
            Request::Remove { base, size } => {
                self.vm(|vm| {
                    vm.remove_mmio_region(&ConfidentialVmMmioRegion::new(base, size)?);
                    Ok(())
                })?;
                Answer::Done
            }
            Request::Defined { base, size } => {
                Answer::Yes(self.vm(|vm| Ok(vm.is_mmio_region_defined(&ConfidentialVmMmioRegion::new(base, size)?)))?)
            }
            Request::Home => Answer::Yes(self.vm(|vm| Ok(vm.is_vm_executing()))?),
        };
        Ok(Done::Answer(answer))
    }

    fn flow(&mut self, hardware_hart: usize) -> ConfidentialFlow<'_> {
        ConfidentialFlow::of_hardware_hart(&mut self.hardware_harts[hardware_hart])
    }

    fn vm<F>(&self, op: impl FnOnce(&mut ConfidentialVm) -> Result<F, Error>) -> Result<F, Error> {
        ControlDataStorage::try_confidential_vm(ConfidentialVmId::new(Self::VM), op)
    }
}

/// Looks at the tables, for tests and for the generator.
impl Machine {
    pub fn is_set_up(&self) -> bool {
        !self.hardware_harts.is_empty()
    }

    pub fn tables(&self) -> Tables {
        Tables { confidential_vm: ControlDataStorage::load(), hardware_harts: self.hardware_harts.clone() }
    }

    pub fn hardware_harts(&self) -> usize {
        self.hardware_harts.len()
    }

    /// What a hardware hart holds.
    pub fn on(&self, hardware_hart: usize) -> &ConfidentialHart {
        self.hardware_harts[hardware_hart].confidential_hart()
    }

    /// The lifecycle state that the VM gives for a hart, or nothing where there is no such hart.
    pub fn state(&self, hart: usize) -> Option<HartLifecycleState> {
        self.vm(|vm| vm.confidential_hart_lifecycle_state(hart)).ok()
    }

    /// The commands that wait for a hart, or nothing where there is no such hart.
    pub fn queue(&self, hart: usize) -> Option<Vec<Command>> {
        self.vm(|vm| vm.try_confidential_hart_remote_commands(hart, |queue| Ok(queue.iter().map(Command::of_remote_command).collect())))
            .ok()
    }
}

/// What the Rust gave back.
enum Done {
    Answer(Answer),
    /// Whether a command was done; how many is read off the effects.
    Processed(bool),
}

/// Document 01's number for an error of the Rust.
pub fn number_of(error: Error) -> usize {
    match error {
        Error::InvalidHartId() => 1,
        Error::HartAlreadyRunning() => 2,
        Error::HartNotExecutable() => 3,
        Error::CannotStartNotStoppedHart() => 4,
        Error::CannotSuspedNotStartedHart() => 5,
        Error::CannotStopNotStartedHart() => 6,
        Error::CannotStartNotSuspendedHart() => 7,
        Error::ReachedMaxNumberOfRemoteCommands() => 8,
        Error::ReachedMaxNumberOfMmioRegions() => 9,
        Error::OverlappingMmioRegion() => 10,
        Error::InvalidConfidentialVmId() => panic!("Bug: a request ran before the first setup"),
    }
}

/// Document 01's number for the one thing that the Rust asserts in a request.
fn asserted(request: &Request) -> usize {
    match request {
        Request::Steal { .. } => 15,
        Request::Await { .. } => 17,
        Request::Return { .. }
        | Request::Suspend { .. }
        | Request::Stop { .. }
        | Request::Wake { .. }
        | Request::Off { .. }
        | Request::Process { .. }
        | Request::Resume { .. } => 16,
        _ => panic!("Bug: the Rust panicked at {request:?}, which asserts nothing"),
    }
}

/// Document 01's number for a lifecycle state.
pub fn state_number(state: &HartLifecycleState) -> usize {
    match state {
        HartLifecycleState::Started => 0,
        HartLifecycleState::Stopped => 1,
        HartLifecycleState::Suspended => 2,
        HartLifecycleState::PoweredOff => 3,
    }
}

/// The operation of a kind, or nothing where there is no such kind.
pub fn operation(kind: usize, x: usize, y: usize) -> Option<ResumableOperation> {
    match kind {
        1 => Some(ResumableOperation::SbiRequest(x, y)),
        2 => Some(ResumableOperation::ResumeHart(x, y)),
        3 => Some(ResumableOperation::MmioLoad(x, y)),
        4 => Some(ResumableOperation::MmioStore(x, y)),
        5 => Some(ResumableOperation::SharePage(x, y)),
        _ => None,
    }
}

/// An operation's kind and its two numbers.
pub fn operation_numbers(operation: &ResumableOperation) -> [usize; 3] {
    match *operation {
        ResumableOperation::SbiRequest(x, y) => [1, x, y],
        ResumableOperation::ResumeHart(x, y) => [2, x, y],
        ResumableOperation::MmioLoad(x, y) => [3, x, y],
        ResumableOperation::MmioStore(x, y) => [4, x, y],
        ResumableOperation::SharePage(x, y) => [5, x, y],
    }
}

fn remote_command(command: Command) -> ConfidentialHartRemoteCommand {
    command.to_remote_command().expect("checked before")
}

thread_local! {
    static IS_CAUGHT: Cell<bool> = const { Cell::new(false) };
}

/// What the Rust gives back, or nothing where it panics. A panic of the driver's own lines is a bug and goes on.
fn caught<F>(run: impl FnOnce() -> F) -> Option<F> {
    IS_CAUGHT.set(true);
    let result = catch_unwind(AssertUnwindSafe(run));
    let is_bug = !IS_CAUGHT.replace(false);
    match result {
        Ok(given) => Some(given),
        Err(panic) if is_bug => resume_unwind(panic),
        Err(_) => None,
    }
}

/// A panic of the Rust is an answer and prints nothing; one of the driver is printed as usual.
fn keep_caught_panics_quiet() {
    static ONCE: Once = Once::new();
    ONCE.call_once(|| {
        let usual = take_hook();
        set_hook(Box::new(move |panic| {
            if panic.location().is_none_or(|location| location.file().contains("src/driver/")) {
                IS_CAUGHT.set(false);
            }
            if !IS_CAUGHT.get() {
                usual(panic);
            }
        }));
    });
}

#[cfg(test)]
mod tests {
    use super::*;

    fn machine() -> Machine {
        let mut machine = Machine::new();
        assert_eq!(machine.line(b"setup\t2\t1\t0\t0\t0\t0\t0").answer, Answer::Done);
        machine
    }

    #[test]
    fn a_panic_of_the_rust_leaves_the_tables_as_they_were() {
        let mut machine = machine();
        let before = machine.tables();
        let result = machine.undone_on_panic(|machine| {
            machine.run(&Request::Steal { hart: 0, hardware_hart: 0 }).expect("the hart is free");
            machine.run(&Request::Allow { bits: 1 }).expect("always done");
            assert_ne!(machine.tables(), before);
            ConfidentialHart::dummy(0).transition_to_shutdown();
        });
        assert_eq!(result, None);
        assert_eq!(machine.tables(), before);
    }

    #[test]
    #[should_panic(expected = "index out of bounds")]
    fn a_panic_of_the_driver_is_no_answer() {
        machine().undone_on_panic(|machine| machine.run(&Request::Return { hardware_hart: 1 })).map(|_| ());
    }
}
