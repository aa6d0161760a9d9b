//! Times soundness and the entries on the tables beside plain Rust, and prints the ratios. An entry judges the tables first, which the original
//! Rust does not: beside each entry runs the original after a judge of the same words in plain Rust.
use compare::QUEUE_WORDS;
use compare::tables::Tables;
use compare::timing::ratio;
use oracle::core::control_data::HardwareHart;
use oracle::driver::Random;
use oudrameng::{ConfidentialHartId, HardwareHartId};
use plain::{are_sound, original_command, started};
use std::hint::black_box;

mod plain;

/// Gives every waiting command a kind at random, with the numbers that it does not use made 0.
fn mix_kinds(tables: &mut Tables) {
    let random = &mut Random::new(1);
    for queue in tables.queues.chunks_exact_mut(QUEUE_WORDS) {
        let waiting = queue[0] as usize;
        for command in queue[1..].chunks_exact_mut(6).take(waiting) {
            command[0] = 1 + random.below(5) as u64;
            command[3..].fill(1);
            match command[0] {
                1 | 2 => command[3..].fill(0),
                3 => command[5] = 0,
                _ => {}
            }
        }
    }
}

fn main() {
    println!("| work | time against plain Rust |");
    println!("|---|---|");
    for (n, m) in [(8, 4), (1024, 64)] {
        for waiting in [1, 63] {
            let (mut ours, mut rust, last) = started(n, m, waiting);
            let words = ours.clone();
            let size = format!("{n} harts, queues of {waiting}");
            ratio(
                &format!("soundness, {size}"),
                || assert!(black_box(&mut ours).lend().are_tables_sound()),
                || assert!(are_sound(black_box(&words))),
            );
            let mut mixed = ours.clone();
            mix_kinds(&mut mixed);
            let words_mixed = mixed.clone();
            ratio(
                &format!("soundness, kinds at random, {size}"),
                || assert!(black_box(&mut mixed).lend().are_tables_sound()),
                || assert!(are_sound(black_box(&words_mixed))),
            );
            let mut hardware_hart = HardwareHart::init(1);
            let (h, k) = (ConfidentialHartId(n as u64 - 1), HardwareHartId(1));
            // The plain judge also agrees while a hart is stolen.
            let mut stolen = words.clone();
            assert_eq!(stolen.lend().steal_confidential_hart(h, k), Ok(0));
            assert!(are_sound(&stolen));
            ratio(
                &format!("steal and return, {size}"),
                || {
                    assert_eq!(black_box(&mut ours).lend().steal_confidential_hart(h, k), Ok(0));
                    assert_eq!(black_box(&mut ours).lend().return_confidential_hart(k), Ok(()));
                },
                || {
                    assert!(are_sound(black_box(&words)));
                    black_box(&mut rust).steal_confidential_hart(h.0 as usize, &mut hardware_hart).expect("it may run");
                    assert!(are_sound(black_box(&words)));
                    black_box(&mut rust).return_confidential_hart(&mut hardware_hart);
                },
            );
            // The command that waits last goes to all again: each queue is searched, and nothing changes.
            let command = original_command(&last);
            ratio(
                &format!("broadcast, {size}"),
                || assert_eq!(black_box(&mut ours).lend().broadcast_remote_command(0, black_box(&last)), Ok(0)),
                || {
                    assert!(are_sound(black_box(&words)));
                    black_box(&mut rust).broadcast_remote_command(0, black_box(command.clone())).expect("it waits already");
                },
            );
        }
    }
}
