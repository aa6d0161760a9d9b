//! Times the functions on lent records, by the Rust package, beside plain Rust that does the same, and prints the ratios. A run is judged before
//! it is worked, so the plain Rust judges it too, as one would write it first. Each time is the least of many runs, and the two are run in turn
//! on the same records.
use compare::MOST_REGIONS;
use compare::leaves::Row;
use compare::lent::{ConfidentialHart, ConfidentialVmMmioRegion, Run};
use compare::timing::{ratio, ratio_on};
use std::hint::black_box;

fn overlaps(one: &ConfidentialVmMmioRegion, base: u64, end: u64) -> bool {
    one.base < end && base < one.end
}

/// Whether a run is sound, in plain Rust.
fn is_sound(run: &Run) -> bool {
    let count = run.count as usize;
    run.records.len() >= MOST_REGIONS
        && count <= MOST_REGIONS
        && run.records[..count].iter().all(|region| region.base <= region.end)
        && run.records[count..MOST_REGIONS].iter().all(|region| region.base == 0 && region.end == 0)
}

fn runs() {
    for count in [8, 128, MOST_REGIONS - 1] {
        let mut records: Vec<_> = (0..count as u64).map(|i| ConfidentialVmMmioRegion { base: 16 * i, end: 16 * i + 8 }).collect();
        records.resize(MOST_REGIONS, ConfidentialVmMmioRegion { base: 0, end: 0 });
        let mut ours = Run { records, count: count as u64 };
        let mut rust = ours.clone();
        let last = 16 * count as u64 - 9;
        ratio(
            &format!("a region that is not defined, {count} regions"),
            || (0..16).for_each(|_| assert!(!black_box(&mut ours).is_mmio_region_defined(black_box(12), 2).defined)),
            || {
                (0..16).for_each(|_| {
                    let (run, base) = (black_box(&rust), black_box(12));
                    let standing = &run.records[..run.count as usize];
                    assert!(is_sound(run) && !standing.iter().any(|region| region.base <= base && base + 2 <= region.end))
                })
            },
        );
        ratio_on(
            &format!("an add that is refused by the last of {count} regions"),
            [&mut ours, &mut rust],
            |_| {},
            |run| (0..16).for_each(|_| assert_eq!(black_box(&mut *run).add(black_box(last), 9), 10)),
            |run| {
                (0..16).for_each(|_| {
                    let (run, base) = (black_box(&mut *run), black_box(last));
                    assert!(is_sound(run) && run.records[..run.count as usize].iter().any(|region| overlaps(region, base, base + 9)))
                })
            },
        );
        ratio_on(
            &format!("a remove that drops the first of {count} regions"),
            [&mut ours.clone(), &mut rust.clone()],
            |run| run.clone_from(&ours),
            |run| assert_eq!(black_box(run).remove(black_box(0), 8), 0),
            |run| {
                let (run, base) = (black_box(run), black_box(0));
                assert!(is_sound(run));
                let mut kept = 0;
                for i in 0..run.count as usize {
                    if !overlaps(&run.records[i], base, base + 8) {
                        run.records[kept] = run.records[i];
                        kept += 1;
                    }
                }
                run.records[kept..run.count as usize].fill(ConfidentialVmMmioRegion { base: 0, end: 0 });
                run.count = kept as u64;
            },
        );
    }
}

/// Whether a record is as it must be, in plain Rust.
fn is_record(hart: &ConfidentialHart) -> bool {
    let idle = hart.operation == 0;
    hart.vm <= 1
        && hart.lifecycle <= 3
        && hart.operation <= 5
        && (!idle || hart.x == 0 && hart.y == 0)
        && (hart.vm == 1 || hart.lifecycle == 0 && idle && hart.registers.iter().all(|&register| register == 0))
}

fn start(hart: &mut ConfidentialHart, address: u64, opaque: u64) -> u64 {
    match hart.lifecycle {
        _ if !is_record(hart) => 12,
        _ if hart.vm == 0 => 2,
        1 => {
            let [_, _, _, _, mstatus, vsstatus] = hart.registers;
            hart.lifecycle = 0;
            hart.registers = [hart.id, opaque, address, 0, mstatus & !(1 << 5) & !(1 << 7), vsstatus & !(1 << 1)];
            0
        }
        _ => 4,
    }
}

fn stop(hart: &mut ConfidentialHart) -> u64 {
    match hart.lifecycle {
        _ if !is_record(hart) => 12,
        _ if hart.vm == 0 => 16,
        0 => {
            hart.lifecycle = 1;
            0
        }
        _ => 6,
    }
}

/// 1,024 harts that are started and stopped again, each in its place.
fn harts() {
    let mut ours = vec![ConfidentialHart::from(Row::from_vm_hart_reset(1)); 1024];
    let mut rust = ours.clone();
    ratio(
        "a start and a stop of each of 1,024 harts",
        || {
            ours.iter_mut().for_each(|hart| {
                assert_eq!(black_box(&mut *hart).transition_from_stopped_to_started(64, 7), Ok(()));
                assert_eq!(black_box(hart).transition_from_started_to_stopped(), Ok(()));
            })
        },
        || rust.iter_mut().for_each(|hart| assert_eq!((start(black_box(&mut *hart), 64, 7), stop(black_box(hart))), (0, 0))),
    );
}

fn main() {
    println!("| work | time against plain Rust |");
    println!("|---|---|");
    runs();
    harts();
}
