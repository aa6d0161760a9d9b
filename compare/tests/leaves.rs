//! Each leaf beside the oracle: queues, regions, and a hart's registers and lifecycle beside the Rust that they are ported from; selection and
//! a command's form beside the oracle's reading of document 01, since the Rust's own is not at hand. What decides soundness is run beside
//! document 01's paragraph written out in `src/document_01.rs`.
use compare::document_01::{is_queue, is_record, is_region_table};
use compare::leaves::{Queue, Regions, Row, is_hart_selected, is_well_formed, new_region};
use compare::{HART_WORDS, MOST_REGIONS, QUEUE_WORDS, original};
use oracle::core::architecture::GeneralPurposeRegister;
use oracle::core::architecture::riscv::sbi::NaclSharedMemory;
use oracle::core::control_data::{ConfidentialHart, ConfidentialVm, ConfidentialVmId, ConfidentialVmMmioRegion};
use oracle::core::memory_layout::ConfidentialVmPhysicalAddress;
use oracle::driver::{Command, Random, number_of, operation};
use oracle::error::Error;
use std::panic::{AssertUnwindSafe, catch_unwind};

const MAX: usize = usize::MAX;
const EDGES: [usize; 16] = [0, 1, 2, 62, 63, 64, 65, 127, 1 << 32, (1 << 63) - 1, 1 << 63, MAX - 65, MAX - 64, MAX - 63, MAX - 1, MAX];

fn number(result: Result<(), Error>) -> u64 {
    result.map_or_else(|error| number_of(error) as u64, |()| 0)
}

/// A number at an edge, or any.
fn any(random: &mut Random) -> usize {
    if random.one_in(2) { random.of(&EDGES) } else { random.next() }
}

fn command(random: &mut Random) -> Command {
    let kind = random.below(8);
    let mut zero_or_any = || if random.one_in(3) { 0 } else { any(random) };
    Command { kind, mask: zero_or_any(), base: zero_or_any(), start: zero_or_any(), size: zero_or_any(), tag: zero_or_any() }
}

#[test]
fn a_command_selects_what_the_oracle_selects() {
    let masks: Vec<usize> = (0..64).map(|bit| 1 << bit).chain(EDGES).chain((0..64).map(|bit| !(1 << bit))).collect();
    for &mask in &masks {
        for base in EDGES {
            for command in (1..=5).map(|kind| Command { kind, mask, base, ..Command::default() }) {
                let rust = command.to_remote_command().expect("well formed");
                let around = (0..=67).map(|beyond| base.wrapping_add(beyond).wrapping_sub(2));
                for hart in around.chain(EDGES) {
                    assert_eq!(is_hart_selected(command, hart as u64), rust.is_hart_selected(hart), "{command:?} {hart}");
                }
            }
        }
    }
    let shutdown = Command { kind: 6, ..Command::default() };
    let rust = shutdown.to_remote_command().expect("well formed");
    for hart in EDGES {
        assert_eq!(is_hart_selected(shutdown, hart as u64), rust.is_hart_selected(hart));
    }
}

#[test]
fn a_command_is_well_formed_when_its_kind_has_a_place_for_its_numbers() {
    for kind in (0..=40).chain([256 + 1, (1 << 32) + 1, (1 << 63) + 6, MAX]) {
        for zeros in 0..32 {
            for value in [1, 1 << 63, MAX] {
                let at = |place: usize| if zeros >> place & 1 == 1 { 0 } else { value };
                let command = Command { kind, mask: at(0), base: at(1), start: at(2), size: at(3), tag: at(4) };
                assert_eq!(is_well_formed(command), command.to_remote_command().is_some(), "{command:?}");
            }
        }
    }
    let random = &mut Random::new(1);
    for _ in 0..100_000 {
        let command = command(random);
        assert_eq!(is_well_formed(command), command.to_remote_command().is_some(), "{command:?}");
    }
}

/// A VM of two harts: hart 0 is stopped and never reached, hart 1 is started.
fn two_harts() -> ConfidentialVm {
    let address = ConfidentialVmPhysicalAddress::new(0).expect("never fails");
    let started = ConfidentialHart::from_vm_hart(1, 0, &address, &NaclSharedMemory { vsatp: 0, vsstatus: 0 });
    ConfidentialVm::new(ConfidentialVmId::new(1), vec![ConfidentialHart::from_vm_hart_reset(0), started])
}

/// The words of hart 1's queue.
fn queue_words(vm: &mut ConfidentialVm) -> [u64; QUEUE_WORDS] {
    let mut words = [0; QUEUE_WORDS];
    vm.try_confidential_hart_remote_commands(1, |queue| {
        words[0] = queue.len() as u64;
        for (place, command) in words[1..].chunks_mut(6).zip(queue.iter()) {
            place.copy_from_slice(&Command::of_remote_command(command).numbers().map(|number| number as u64));
        }
        Ok(())
    })
    .expect("hart 1 has a queue");
    words
}

#[test]
fn a_queue_takes_what_the_rusts_takes() {
    let random = &mut Random::new(2);
    let mut seen = [0; 4];
    for _ in 0..200 {
        let mut vm = two_harts();
        let mut queue = Queue([0; QUEUE_WORDS]);
        // Commands that select hart 1, more of them than a queue holds; each has a twin that differs in one number.
        let mut pool: Vec<Command> = (0..60)
            .map(|_| {
                let (mask, start, size, tag) = (random.next() | 3, any(random), any(random), any(random));
                let base = random.of(&[0, 1, MAX]);
                match random.below(8) {
                    0 => Command { kind: 6, ..Command::default() },
                    kind @ 1..3 => Command { kind, mask, base, ..Command::default() },
                    3 => Command { kind: 3, mask, base, start, size, tag: 0 },
                    kind => Command { kind: 4 + kind % 2, mask, base, start, size, tag },
                }
            })
            .collect();
        for at in 0..pool.len() {
            let Command { kind, mask, base, start, size, tag } = pool[at];
            let twin = match random.below(6) {
                0 => Command { kind: if kind < 3 { 3 - kind } else { 9 - kind.max(4) }, ..pool[at] },
                1 => Command { mask: mask ^ (4 << random.below(62)), ..pool[at] },
                2 => Command { base: 1 - base.min(1), ..pool[at] },
                3 => Command { start: start ^ (1 << random.below(64)), ..pool[at] },
                4 => Command { size: size ^ (1 << random.below(64)), ..pool[at] },
                _ => Command { tag: tag ^ (1 << random.below(64)), ..pool[at] },
            };
            pool.extend(twin.to_remote_command().filter(|rust| rust.is_hart_selected(1)).map(|_| twin));
        }
        for _ in 0..240 {
            let command = random.of(&pool);
            let before = queue.clone();
            let rust = vm.broadcast_remote_command(0, command.to_remote_command().expect("well formed")).map(|_| ());
            assert_eq!(queue.offer(command), number(rust), "{command:?} {before:?}");
            assert_eq!(queue.0, queue_words(&mut vm), "{command:?} {before:?}");
            let waits = before.0[1..].chunks(6).any(|place| place == command.numbers().map(|number| number as u64));
            seen[2 * (before.0[0] == 64) as usize + waits as usize] += 1;
        }
    }
    assert!(seen.iter().all(|&times| times > 500), "new and waiting, with room and without: {seen:?}");
}

/// A VM in which these regions were added in order: it equals another exactly when the other has the same regions in the same order.
fn with_regions(regions: &Regions) -> ConfidentialVm {
    let mut vm = two_harts();
    let (table, past) = regions.words.split_at(2 * MOST_REGIONS);
    assert_eq!(past, Regions::PAST, "words past the last place were written");
    let (standing, unused) = table.split_at(2 * regions.count as usize);
    assert!(unused.iter().all(|&word| word == 0), "an unused place is not 0");
    for place in standing.chunks(2) {
        let (base, end) = (place[0] as usize, place[1] as usize);
        vm.add_mmio_region(ConfidentialVmMmioRegion::new(base, end - base).expect("it ends where it ended")).expect("none overlap");
    }
    vm
}

#[test]
fn regions_come_and_go_as_in_the_rust() {
    let random = &mut Random::new(3);
    let (mut answers, mut defined, mut removed) = ([0; 12], [0; 2], [0; 3]);
    for round in 0..300 {
        let mut vm = two_harts();
        let mut regions = Regions::new();
        let unit = random.of(&[1, 8, 4096]);
        for _ in 0..120 {
            let start = match random.below(8) {
                0 => any(random),
                1 => MAX - random.below(4),
                _ => random.below(64) * unit,
            };
            let size = if random.one_in(12) { any(random) } else { random.below(6) * unit };
            let (made, region) = new_region(start as u64, size as u64);
            if start.checked_add(size).is_none() {
                assert_eq!((made, region), (11, [0, 0]), "{start} {size}");
                answers[11] += 1;
                continue;
            }
            let rust = ConfidentialVmMmioRegion::new(start, size).expect("making an address never fails");
            let ends = [&rust.base_address, &rust.one_past_the_end_address].map(|address| address.usize() as u64);
            assert_eq!((made, region), (0, ends), "{start} {size}");
            let yes = regions.is_mmio_region_defined(region);
            assert_eq!(yes, vm.is_mmio_region_defined(&rust), "{round} {region:?} {regions:?}");
            defined[yes as usize] += 1;
            if random.one_in(4) {
                let before = regions.count;
                regions.remove(region);
                vm.remove_mmio_region(&rust);
                removed[(before - regions.count).min(2) as usize] += 1;
            } else {
                let answer = regions.add(region);
                assert_eq!(answer, number(vm.add_mmio_region(rust)), "{round} {region:?}");
                answers[answer as usize] += 1;
            }
            assert_eq!(with_regions(&regions), vm, "{round} {region:?}");
        }
    }
    assert!([0, 10, 11].iter().all(|&number: &usize| answers[number] > 100), "added, overlapping and too large: {answers:?}");
    assert!(defined.iter().chain(&removed).all(|&times| times > 100), "no and yes: {defined:?}; none, one and more: {removed:?}");
}

#[test]
fn the_1025th_region_is_refused_as_in_the_rust() {
    let random = &mut Random::new(6);
    let mut vm = two_harts();
    let mut regions = Regions::new();
    // 1,024 regions side by side, added in any order, and one more beyond them.
    let mut starts: Vec<usize> = (0..MOST_REGIONS).map(|i| 8 * i).collect();
    for i in (1..starts.len()).rev() {
        starts.swap(i, random.below(i + 1));
    }
    starts.push(8 * MOST_REGIONS);
    for start in starts {
        let (_, region) = new_region(start as u64, 8);
        let rust = vm.add_mmio_region(ConfidentialVmMmioRegion::new(start, 8).expect("in range"));
        assert_eq!(regions.add(region), number(rust), "{start}");
    }
    // Full comes before overlapping.
    let again = vm.add_mmio_region(ConfidentialVmMmioRegion::new(0, 8).expect("in range"));
    assert_eq!([regions.add([0, 8]), number(again)], [9, 9]);
    assert_eq!(with_regions(&regions), vm);
    // Two, then a fifth of them scattered over the table, then all.
    for (base, end) in [(4, 12), (8 * 500 + 7, 8 * 700 + 1), (0, u64::MAX)] {
        regions.remove([base, end]);
        vm.remove_mmio_region(&ConfidentialVmMmioRegion::new(base as usize, (end - base) as usize).expect("in range"));
        assert_eq!(with_regions(&regions), vm);
    }
    assert_eq!(regions, Regions::new());
}

/// The row of a hart of the Rust.
fn hart_words(hart: &ConfidentialHart) -> Row {
    Row(original::hart_words(hart))
}

fn made(mut hart: ConfidentialHart) -> ConfidentialHart {
    hart.set_confidential_vm_id(ConfidentialVmId::new(1));
    hart
}

#[test]
fn harts_are_made_as_in_the_rust() {
    let random = &mut Random::new(4);
    for _ in 0..10_000 {
        let [id, pc, a1, vsatp, vsstatus] = [(); 5].map(|()| any(random));
        assert_eq!(Row::dummy(id as u64), hart_words(&ConfidentialHart::dummy(id)));
        assert_eq!(Row::from_vm_hart_reset(id as u64), hart_words(&made(ConfidentialHart::from_vm_hart_reset(id))));
        let address = ConfidentialVmPhysicalAddress::new(a1).expect("never fails");
        let rust = ConfidentialHart::from_vm_hart(id, pc, &address, &NaclSharedMemory { vsatp, vsstatus });
        let ours = Row::from_vm_hart(id as u64, pc as u64, a1 as u64, vsatp as u64, vsstatus as u64);
        assert_eq!(ours, hart_words(&made(rust)));
    }
}

/// A real hart in a lifecycle state, with any operation and any registers.
fn hart_in(state: usize, random: &mut Random) -> ConfidentialHart {
    let mut hart = made(ConfidentialHart::from_vm_hart_reset(any(random)));
    let moved = match state {
        0 => hart.transition_from_stopped_to_started(0, 0),
        1 => Ok(()),
        2 => hart.transition_from_stopped_to_started(0, 0).and_then(|()| hart.transition_from_started_to_suspended()),
        _ => Ok(hart.transition_to_shutdown()),
    };
    moved.expect("each state is reached so");
    let gprs = hart.gprs_mut();
    gprs.write(GeneralPurposeRegister::a0, any(random));
    gprs.write(GeneralPurposeRegister::a1, any(random));
    let csrs = hart.csrs_mut();
    csrs.mepc.save_value_in_main_memory(any(random));
    csrs.vsatp.save_value_in_main_memory(any(random));
    csrs.mstatus.save_value_in_main_memory(any(random));
    csrs.vsstatus.save_value_in_main_memory(any(random));
    if let Some(operation) = operation(random.below(6), any(random), any(random)) {
        hart.set_resumable_operation(operation);
    }
    hart
}

#[test]
fn a_hart_changes_as_in_the_rust() {
    let random = &mut Random::new(5);
    for round in 0..100_000 {
        let (state, change) = (round % 4, round / 4 % 5);
        let mut rust = hart_in(state, random);
        let before = hart_words(&rust);
        let mut ours = before;
        let (address, opaque) = (any(random), any(random));
        let (number_of_ours, result) = match change {
            0 => (ours.start(address as u64, opaque as u64), rust.transition_from_stopped_to_started(address, opaque)),
            1 => (ours.suspend(), rust.transition_from_started_to_suspended()),
            2 => (ours.stop(), rust.transition_from_started_to_stopped()),
            3 => (ours.wake(address as u64, opaque as u64), rust.transition_from_suspended_to_started(address, opaque)),
            _ => (ours.off(), Ok(rust.transition_to_shutdown())),
        };
        assert_eq!(number_of_ours, number(result), "{before:?} {change}");
        assert_eq!(ours, hart_words(&rust), "{before:?} {change}");
    }
}

#[test]
fn a_dummy_changes_nowhere() {
    for hardware_hart in EDGES {
        let mut rust = ConfidentialHart::dummy(hardware_hart);
        let before = hart_words(&rust);
        let mut ours = before;
        assert_eq!(ours.start(1, 2), number(rust.transition_from_stopped_to_started(1, 2)));
        // The Rust asserts in the other four.
        let asserts: [fn(&mut ConfidentialHart); 4] = [
            |hart| drop(hart.transition_from_started_to_suspended()),
            |hart| drop(hart.transition_from_started_to_stopped()),
            |hart| drop(hart.transition_from_suspended_to_started(1, 2)),
            |hart| hart.transition_to_shutdown(),
        ];
        for change in asserts {
            assert!(catch_unwind(AssertUnwindSafe(|| change(&mut rust))).is_err());
        }
        assert_eq!([ours.suspend(), ours.stop(), ours.wake(1, 2), ours.off()], [16; 4]);
        assert_eq!((ours, hart_words(&rust)), (before, before));
    }
}

#[test]
fn a_record_that_is_not_one_is_12_and_stays() {
    let random = &mut Random::new(7);
    let mut seen = [0; 2];
    for round in 0..100_000 {
        let mut row = if round % 5 == 4 { Row::dummy(any(random) as u64) } else { hart_words(&hart_in(round % 5, random)) };
        let numbers = [0, 1, 2, 3, 4, 5, 6, 7, 1 << 32, u64::MAX];
        for _ in 0..random.below(3) {
            row.0[random.below(HART_WORDS)] = random.of(&numbers);
        }
        let good = is_record(&row.0);
        seen[good as usize] += 1;
        assert_eq!(row.is_well_formed(), good, "{row:?}");
        let changes: [fn(&mut Row) -> u64; 5] = [|row| row.start(1, 2), Row::suspend, Row::stop, |row| row.wake(1, 2), Row::off];
        for (change, dummys) in changes.iter().zip([2, 16, 16, 16, 16]) {
            let mut after = row;
            let number = change(&mut after);
            assert_eq!(number == 12, !good, "{row:?}");
            assert_eq!(number == dummys, good && row.0[0] == 0, "{row:?}");
            assert!(number == 0 || after == row, "{row:?}");
        }
    }
    assert!(seen.iter().all(|&times| times > 10_000), "damaged and not: {seen:?}");
}

#[test]
fn a_queue_with_one_damaged_word_is_told() {
    let random = &mut Random::new(8);
    let mut seen = [0; 2];
    for _ in 0..2_000 {
        let mut queue = Queue([0; QUEUE_WORDS]);
        for _ in 0..random.below(70) {
            let command = command(random);
            if command.to_remote_command().is_some() {
                queue.offer(command);
            }
        }
        assert!(is_queue(&queue.0) && queue.is_well_formed());
        for _ in 0..50 {
            let mut damaged = queue.clone();
            let last = 1 + 6 * queue.0[0] as usize;
            let place = if random.one_in(2) { random.below(QUEUE_WORDS) } else { random.below(last) };
            damaged.0[place] = random.of(&[0, 1, 3, 6, 7, 63, 64, 65, 1 << 63, u64::MAX]);
            seen[is_queue(&damaged.0) as usize] += 1;
            assert_eq!(damaged.is_well_formed(), is_queue(&damaged.0), "{place} {damaged:?}");
        }
    }
    assert!(seen.iter().all(|&times| times > 10_000), "damaged and not: {seen:?}");
}

#[test]
fn a_damaged_region_table_is_told() {
    let random = &mut Random::new(9);
    let mut seen = [0; 2];
    for count in [0, 1, 2, 1000, MOST_REGIONS - 1, MOST_REGIONS] {
        let mut regions = Regions::new();
        for i in 0..count {
            assert_eq!(regions.add(new_region(8 * i as u64, 8 * (i % 2) as u64).1), 0);
        }
        assert!(is_region_table(&regions.words, regions.count) && regions.are_sound());
        for _ in 0..3_000 {
            let mut damaged = regions.clone();
            match random.below(4) {
                0 => damaged.count = random.of(&[0, 1, count as u64 + 1, 1023, 1024, 1025, 1 << 63, u64::MAX]),
                1 => damaged.words.truncate(random.of(&[0, 1, 2 * MOST_REGIONS - 1, 2 * MOST_REGIONS, 2 * MOST_REGIONS + 1])),
                2 => damaged.words[random.below(2 * count + 1)] = any(random) as u64,
                _ => damaged.words[random.below(2 * MOST_REGIONS + 3)] = any(random) as u64,
            }
            seen[is_region_table(&damaged.words, damaged.count) as usize] += 1;
            assert_eq!(damaged.are_sound(), is_region_table(&damaged.words, damaged.count), "{} {}", damaged.count, damaged.words.len());
        }
    }
    assert!(seen.iter().all(|&times| times > 1_000), "damaged and not: {seen:?}");
}
