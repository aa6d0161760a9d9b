//! The words that the original Rust's tables stand for, and back.
use crate::tables::Tables;
use crate::{HART_WORDS, HEAD_WORDS, MOST_REGIONS, QUEUE_WORDS, REGION_WORDS};
use oracle::core::architecture::GeneralPurposeRegister;
use oracle::core::control_data::{
    ConfidentialHart, ConfidentialVm, ConfidentialVmId, ConfidentialVmMmioRegion, ControlDataStorage, HardwareHart,
};
use oracle::driver::{self, Command, Machine, operation, operation_numbers, state_number};

fn id() -> ConfidentialVmId {
    ConfidentialVmId::new(Machine::VM)
}

/// The words of a hart.
pub fn hart_words(hart: &ConfidentialHart) -> [u64; HART_WORDS] {
    let [kind, x, y] = hart.clone().take_resumable_operation().map_or([0; 3], |operation| operation_numbers(&operation));
    let (gprs, csrs) = (hart.gprs(), hart.csrs());
    [
        !hart.is_dummy() as usize,
        hart.confidential_hart_id(),
        state_number(hart.lifecycle_state()),
        kind,
        x,
        y,
        gprs.read(GeneralPurposeRegister::a0),
        gprs.read(GeneralPurposeRegister::a1),
        csrs.mepc.read_from_main_memory(),
        csrs.vsatp.read_from_main_memory(),
        csrs.mstatus.read_from_main_memory(),
        csrs.vsstatus.read_from_main_memory(),
    ]
    .map(|word| word as u64)
}

/// Writes the words of the machine over the front of tables that have room for them. What lies past them stays.
pub fn write_words(machine: &Machine, tables: &mut Tables) {
    let written = ControlDataStorage::try_confidential_vm(id(), |vm| {
        write_words_of(vm, machine, tables);
        Ok(())
    });
    written.expect("it is set up");
}

fn write_words_of(vm: &ConfidentialVm, machine: &Machine, tables: &mut Tables) {
    let (n, m) = (vm.confidential_harts().len(), machine.hardware_harts());
    let counts = [n, m, vm.allowed_external_interrupts(), vm.mmio_regions().len()];
    tables.head[..HEAD_WORDS].copy_from_slice(&counts.map(|count| count as u64));
    for (row, hart) in tables.home.chunks_mut(HART_WORDS).zip(vm.confidential_harts()) {
        row.copy_from_slice(&hart_words(hart));
    }
    for (k, row) in tables.hardware.chunks_mut(HART_WORDS).enumerate().take(m) {
        row.copy_from_slice(&hart_words(machine.on(k)));
    }
    for (h, queue) in tables.queues.chunks_mut(QUEUE_WORDS).enumerate().take(n) {
        let commands = vm.remote_commands(h);
        let (waiting, unused) = queue.split_at_mut(1 + 6 * commands.len());
        waiting[0] = commands.len() as u64;
        for (place, command) in waiting[1..].chunks_mut(6).zip(commands) {
            place.copy_from_slice(&Command::of_remote_command(command).numbers().map(|number| number as u64));
        }
        unused.fill(0);
    }
    let (standing, unused) = tables.regions[..REGION_WORDS * MOST_REGIONS].split_at_mut(REGION_WORDS * vm.mmio_regions().len());
    for (place, region) in standing.chunks_mut(REGION_WORDS).zip(vm.mmio_regions()) {
        let ends = [&region.base_address, &region.one_past_the_end_address];
        place.copy_from_slice(&ends.map(|address| address.usize() as u64));
    }
    unused.fill(0);
}

/// The hart of a row that is a record: set up, brought into its lifecycle by the Rust's own changes, then given its registers and operation.
pub fn hart_of(row: &[u64]) -> ConfidentialHart {
    let row: Vec<usize> = row.iter().map(|&word| word as usize).collect();
    let [vm, number, lifecycle, kind, x, y, a0, a1, mepc, vsatp, mstatus, vsstatus] = row[..] else { panic!("a row has twelve words") };
    if vm == 0 {
        return ConfidentialHart::dummy(number);
    }
    let mut hart = ConfidentialHart::from_vm_hart_reset(number);
    hart.set_confidential_vm_id(id());
    match lifecycle {
        0 => hart.transition_from_stopped_to_started(0, 0).expect("it is stopped"),
        2 => {
            hart.transition_from_stopped_to_started(0, 0).expect("it is stopped");
            hart.transition_from_started_to_suspended().expect("it is started");
        }
        3 => hart.transition_to_shutdown(),
        _ => {}
    }
    hart.gprs_mut().write(GeneralPurposeRegister::a0, a0);
    hart.gprs_mut().write(GeneralPurposeRegister::a1, a1);
    let csrs = hart.csrs_mut();
    csrs.mepc.save_value_in_main_memory(mepc);
    csrs.vsatp.save_value_in_main_memory(vsatp);
    csrs.mstatus.save_value_in_main_memory(mstatus);
    csrs.vsstatus.save_value_in_main_memory(vsstatus);
    if let Some(operation) = operation(kind, x, y) {
        hart.set_resumable_operation(operation);
    }
    hart
}

/// Makes the machine hold what sound tables say, whether or not requests lead there.
pub fn read_words(tables: &Tables, machine: &mut Machine) {
    let (n, m) = tables.sizes();
    let mut vm = ConfidentialVm::new(id(), (0..n).map(ConfidentialHart::from_vm_hart_reset).collect());
    vm.allow_external_interrupt(tables.head[2] as usize);
    for (h, hart) in vm.confidential_harts_mut().iter_mut().enumerate() {
        *hart = hart_of(tables.home_row(h));
    }
    for h in 0..n {
        let [count, commands @ ..] = tables.queue(h) else { panic!("a queue has words") };
        let commands = commands.as_chunks::<6>().0.iter().take(*count as usize).map(|numbers| {
            let command = Command::of_numbers(&numbers.map(|number| number as usize));
            command.to_remote_command().expect("the tables are sound")
        });
        let filled = vm.try_confidential_hart_remote_commands(h, |queue| {
            queue.extend(commands);
            Ok(())
        });
        filled.expect("there is such a hart");
    }
    let regions = tables.regions.as_chunks::<REGION_WORDS>().0.iter().take(tables.head[3] as usize);
    vm.mmio_regions_mut().extend(
        regions.map(|&[base, end]| ConfidentialVmMmioRegion::new(base as usize, (end - base) as usize).expect("the tables are sound")),
    );
    let hardware_harts = (0..m).map(|k| {
        let mut hardware_hart = HardwareHart::init(k);
        *hardware_hart.confidential_hart_mut() = hart_of(tables.hardware_row(k));
        hardware_hart
    });
    machine.put_back(driver::Tables { confidential_vm: Some(vm), hardware_harts: hardware_harts.collect() });
}
