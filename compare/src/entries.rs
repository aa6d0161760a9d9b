//! The proved entries, each as one function of a request on lent words: the C functions themselves, and the safe package over them.
use crate::tables::Tables;
use crate::{EFFECT_WORDS, REPLY_VALUE_WORDS, VALUE_WORDS};
use oracle::driver::{Command, Request};
use oudrameng::{ConfidentialHartId, ConfidentialHartRemoteCommand, Error, HardwareHartId, Reply, ResumableOperation, Resumed, Setup, ffi};

/// A request on tables, room for effects and room for values; it gives the number.
pub type Entry = fn(&mut Tables, &Request, &mut [u64], &mut [u64]) -> u64;

/// For how many effect records a request asks for room.
pub fn records_asked(request: &Request) -> usize {
    match request {
        Request::Broadcast { .. } => 1,
        Request::Process { .. } | Request::Resume { .. } => 64,
        _ => 0,
    }
}

/// For how many words a request asks for its values: none where its answer has no value.
pub fn value_words_asked(request: &Request) -> usize {
    match request {
        Request::Broadcast { .. } | Request::Process { .. } | Request::Resume { .. } => REPLY_VALUE_WORDS,
        Request::Steal { .. } | Request::Status { .. } | Request::Home | Request::Send { .. } | Request::Defined { .. } => VALUE_WORDS,
        _ => 0,
    }
}

/// Calls a C function: its numbers, the five tables, and the runs that follow them.
macro_rules! call {
    ($name:ident($tables:ident $(, $number:expr)*) $($words:ident)*) => {{
        let Tables { head, home, hardware, queues, regions } = $tables;
        // SAFETY: each run is a vector or a slice of its own, and the function takes any numbers and any words.
        unsafe {
            ffi::$name(
                $($number as u64,)*
                head.as_mut_ptr(), head.len(), home.as_mut_ptr(), home.len(), hardware.as_mut_ptr(), hardware.len(),
                queues.as_mut_ptr(), queues.len(), regions.as_mut_ptr(), regions.len()
                $(, $words.as_mut_ptr(), $words.len())*
            )
        }
    }};
}

/// By the C functions.
#[rustfmt::skip]
pub fn by_c(tables: &mut Tables, request: &Request, effects: &mut [u64], value: &mut [u64]) -> u64 {
    match *request {
        Request::Setup { harts, hardware_harts, boot, a1, mepc, vsatp, vsstatus } => {
            call!(oudrameng_new(tables, harts, hardware_harts, boot, a1, mepc, vsatp, vsstatus))
        }
        Request::Steal { hart, hardware_hart } => call!(oudrameng_steal_confidential_hart(tables, hart, hardware_hart) value),
        Request::Return { hardware_hart } => call!(oudrameng_return_confidential_hart(tables, hardware_hart)),
        Request::Start { hart, address, opaque } => call!(oudrameng_start_confidential_hart(tables, hart, address, opaque)),
        Request::Suspend { hardware_hart } => call!(oudrameng_suspend_confidential_hart(tables, hardware_hart)),
        Request::Stop { hardware_hart } => call!(oudrameng_stop_confidential_hart(tables, hardware_hart)),
        Request::Wake { hardware_hart, address, opaque } => {
            call!(oudrameng_resume_confidential_hart(tables, hardware_hart, address, opaque))
        }
        Request::Off { hardware_hart } => call!(oudrameng_shutdown_confidential_hart(tables, hardware_hart)),
        Request::Status { hart } => call!(oudrameng_confidential_hart_lifecycle_state(tables, hart) value),
        Request::Await { hardware_hart, kind, x, y } => call!(oudrameng_set_resumable_operation(tables, hardware_hart, kind, x, y)),
        Request::Process { hardware_hart } => {
            call!(oudrameng_process_confidential_hart_remote_commands(tables, hardware_hart) effects value)
        }
        Request::Resume { hardware_hart } => call!(oudrameng_resume_confidential_hart_execution(tables, hardware_hart) effects value),
        Request::Broadcast { hardware_hart, command: Command { kind, mask, base, start, size, tag } } => {
            call!(oudrameng_flow_broadcast_remote_command(tables, hardware_hart, kind, mask, base, start, size, tag) effects value)
        }
        Request::Send { sender, command: Command { kind, mask, base, start, size, tag } } => {
            call!(oudrameng_broadcast_remote_command(tables, sender, kind, mask, base, start, size, tag) value)
        }
        Request::Allow { bits } => call!(oudrameng_allow_external_interrupt(tables, bits)),
        Request::Add { base, size } => call!(oudrameng_add_mmio_region(tables, base, size)),
        Request::Remove { base, size } => call!(oudrameng_remove_mmio_region(tables, base, size)),
        Request::Defined { base, size } => call!(oudrameng_is_mmio_region_defined(tables, base, size) value),
        Request::Home => call!(oudrameng_is_vm_executing(tables) value),
    }
}

/// By the safe package, what it gives being written as the C functions write it. It lends room for values itself, so a request that is lent too
/// little goes to the C functions.
pub fn by_package(tables: &mut Tables, request: &Request, effects: &mut [u64], value: &mut [u64]) -> u64 {
    if value.len() < value_words_asked(request) {
        return by_c(tables, request, effects, value);
    }
    let hart_id = |hart: usize| ConfidentialHartId(hart as u64);
    let on = |hardware_hart: usize| HardwareHartId(hardware_hart as u64);
    let vm = &mut tables.lend();
    match *request {
        Request::Setup { harts, hardware_harts, boot, a1, mepc, vsatp, vsstatus } => {
            let [harts, hardware, a1, mepc, vsatp, vsstatus] = [harts, hardware_harts, a1, mepc, vsatp, vsstatus].map(|n| n as u64);
            unvalued(vm.set_up(&Setup { harts, hardware, boot: hart_id(boot), a1, mepc, vsatp, vsstatus }))
        }
        Request::Steal { hart, hardware_hart } => valued(vm.steal_confidential_hart(hart_id(hart), on(hardware_hart)), value),
        Request::Return { hardware_hart } => unvalued(vm.return_confidential_hart(on(hardware_hart))),
        Request::Start { hart, address, opaque } => unvalued(vm.start_confidential_hart(hart_id(hart), address as u64, opaque as u64)),
        Request::Suspend { hardware_hart } => unvalued(vm.confidential_flow(on(hardware_hart)).suspend_confidential_hart()),
        Request::Stop { hardware_hart } => unvalued(vm.confidential_flow(on(hardware_hart)).stop_confidential_hart()),
        Request::Wake { hardware_hart, address, opaque } => {
            unvalued(vm.confidential_flow(on(hardware_hart)).resume_confidential_hart(address as u64, opaque as u64))
        }
        Request::Off { hardware_hart } => unvalued(vm.confidential_flow(on(hardware_hart)).shutdown_confidential_hart()),
        Request::Status { hart } => valued(vm.confidential_hart_lifecycle_state(hart_id(hart)).map(|state| state as u64), value),
        Request::Await { hardware_hart, kind, x, y } => {
            let operation = ResumableOperation { kind: kind as u64, x: x as u64, y: y as u64 };
            unvalued(vm.confidential_flow(on(hardware_hart)).set_resumable_operation(&operation))
        }
        Request::Process { hardware_hart } => {
            let given = vm.confidential_flow(on(hardware_hart)).process_confidential_hart_remote_commands(effects);
            reply_valued(given, effects, value, |count| vec![count])
        }
        Request::Resume { hardware_hart } => {
            let given = vm.confidential_flow(on(hardware_hart)).resume_confidential_hart_execution(effects);
            reply_valued(given, effects, value, |resumed| match resumed {
                Resumed::Run => vec![0],
                Resumed::Off => vec![1],
                Resumed::Operation(operation) => vec![2, operation.kind, operation.x, operation.y],
            })
        }
        Request::Broadcast { hardware_hart, command } => {
            let given = vm.confidential_flow(on(hardware_hart)).broadcast_remote_command(&remote_command(command), effects);
            reply_valued(given, effects, value, |mask| vec![mask])
        }
        Request::Send { sender, command } => valued(vm.broadcast_remote_command(sender as u64, &remote_command(command)), value),
        Request::Allow { bits } => unvalued(vm.allow_external_interrupt(bits as u64)),
        Request::Add { base, size } => unvalued(vm.add_mmio_region(base as u64, size as u64)),
        Request::Remove { base, size } => unvalued(vm.remove_mmio_region(base as u64, size as u64)),
        Request::Defined { base, size } => valued(vm.is_mmio_region_defined(base as u64, size as u64).map(|defined| defined as u64), value),
        Request::Home => valued(vm.is_vm_executing().map(|home| home as u64), value),
    }
}

/// A command as the package has it: one that is well formed is made by the constructor of its kind.
fn remote_command(command: Command) -> ConfidentialHartRemoteCommand {
    let numbers @ [kind, mask, base, start, size, tag] = command.numbers().map(|number| number as u64);
    match kind {
        _ if command.to_remote_command().is_none() => ConfidentialHartRemoteCommand::of_numbers(numbers),
        1 => ConfidentialHartRemoteCommand::ipi(mask, base),
        2 => ConfidentialHartRemoteCommand::remote_fence_i(mask, base),
        3 => ConfidentialHartRemoteCommand::remote_sfence_vma(mask, base, start, size),
        4 => ConfidentialHartRemoteCommand::remote_sfence_vma_asid(mask, base, start, size, tag),
        5 => ConfidentialHartRemoteCommand::remote_hfence_gvma_vmid(mask, base, start, size, tag),
        _ => ConfidentialHartRemoteCommand::shutdown_request(),
    }
}

/// The number of an answer of the package that has no value.
pub fn unvalued(answer: Result<(), Error>) -> u64 {
    answer.map_or_else(Error::number, |()| 0)
}

fn valued(answer: Result<u64, Error>, value: &mut [u64]) -> u64 {
    answer.map_or_else(Error::number, |word| {
        value[0] = word;
        0
    })
}

/// Writes how many records were written and then the values. The records are read by the package and written again.
fn reply_valued<T>(given: Reply<T>, room: &mut [u64], value: &mut [u64], values: impl FnOnce(T) -> Vec<u64>) -> u64 {
    let records: Vec<_> = oudrameng::effects(room, given.did).collect();
    assert_eq!(records.len(), given.did, "the package gives as many records as were written");
    for (place, effect) in room.as_chunks_mut::<EFFECT_WORDS>().0.iter_mut().zip(records) {
        let [kind, mask, base, start, size, tag] = effect.command.numbers();
        *place = [effect.hart.0, kind, mask, base, start, size, tag];
    }
    value[0] = given.did as u64;
    given.answer.map_or_else(Error::number, |answer| {
        let values = values(answer);
        value[1..][..values.len()].copy_from_slice(&values);
        0
    })
}
