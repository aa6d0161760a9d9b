//! What the tables are timed beside, in plain Rust.
use compare::document_01::{is_long_enough, is_queue, is_record, is_region_table};
use compare::tables::Tables;
use compare::{HART_WORDS, HEAD_WORDS, QUEUE_WORDS};
use oracle::core::control_data::{ConfidentialHart, ConfidentialVm, ConfidentialVmId};
use oracle::driver::Command;
use oudrameng::{ConfidentialHartId, ConfidentialHartRemoteCommand, Setup};

/// Soundness as one would write it.
pub fn are_sound(tables: &Tables) -> bool {
    let [n, m, _, regions] = *tables.head.first_chunk().unwrap_or(&[0; HEAD_WORDS]);
    if !(1..=1024).contains(&n) || !(1..=64).contains(&m) || !is_long_enough(tables, n as usize, m as usize) {
        return false;
    }
    let (home, hardware) = (&tables.home[..n as usize * HART_WORDS], &tables.hardware[..m as usize * HART_WORDS]);
    // Each row holds its own, or one of the other table, whose row holds this row's own.
    let sound = |own: u64, rows: &[u64], others: &[u64]| {
        rows.chunks_exact(HART_WORDS).enumerate().all(|(i, row)| {
            is_record(row)
                && if row[0] == own {
                    row[1] == i as u64
                } else {
                    let tied = others.get((row[1] as usize).saturating_mul(HART_WORDS)..).unwrap_or(&[]);
                    tied.len() >= HART_WORDS && tied[0] == own && tied[1] == i as u64
                }
        })
    };
    sound(1, home, hardware)
        && sound(0, hardware, home)
        && tables.queues[..n as usize * QUEUE_WORDS].chunks_exact(QUEUE_WORDS).all(is_queue)
        && is_region_table(&tables.regions, regions)
}

/// A VM whose harts all are Started and have so many commands each, as ours and as the original, and the command that waits last in each queue.
pub fn started(n: usize, m: usize, waiting: usize) -> (Tables, ConfidentialVm, ConfidentialHartRemoteCommand) {
    // Every word is written before it is timed.
    let mut ours = Tables::filled(Tables::needed(n, m), || u64::MAX);
    let mut lent = ours.lend();
    let boot = ConfidentialHartId(0);
    let setup = Setup { harts: n as u64, hardware: m as u64, boot, a1: 1, mepc: 2, vsatp: 3, vsstatus: 4 };
    assert_eq!(lent.set_up(&setup), Ok(()));
    let mut rust = ConfidentialVm::new(ConfidentialVmId::new(1), (0..n).map(ConfidentialHart::from_vm_hart_reset).collect());
    rust.start_confidential_hart(0, 2, 1).expect("it is stopped");
    for hart in 1..n {
        assert_eq!(lent.start_confidential_hart(ConfidentialHartId(hart as u64), 2, 1), Ok(()));
        rust.start_confidential_hart(hart, 2, 1).expect("it is stopped");
    }
    let mut last = ConfidentialHartRemoteCommand::default();
    for start in 0..waiting as u64 {
        last = ConfidentialHartRemoteCommand::remote_sfence_vma(start + 1, u64::MAX, start, 4096);
        assert_eq!(lent.broadcast_remote_command(n as u64, &last), Ok(0));
        rust.broadcast_remote_command(n, original_command(&last)).expect("there is room");
    }
    (ours, rust, last)
}

/// A command as the original Rust has it.
pub fn original_command(command: &ConfidentialHartRemoteCommand) -> oracle::core::control_data::ConfidentialHartRemoteCommand {
    Command::of_numbers(&command.numbers().map(|number| number as usize)).to_remote_command().expect("well formed")
}
