//! Document 01's cases, P1 to P9, its errors that look right and its limits, as the Rust answers them.
use oracle::core::architecture::GeneralPurposeRegister::{a0, a1};
use oracle::core::control_data::{ConfidentialHart, ConfidentialVmId};
use oracle::driver::{Answer, Command, Machine, Request};

/// The printed answer to a line, in which spaces stand for tabs and `/` for a line end within.
fn answer(machine: &mut Machine, line: &str) -> String {
    let printed = machine.line(line.replace(' ', "\t").as_bytes()).to_string();
    printed.strip_suffix('\n').expect("each line ends").replace('\n', " / ").replace('\t', " ")
}

/// Runs `line > answer` lines on a machine.
fn expect_on(machine: &mut Machine, script: &str) {
    for line in script.lines().map(str::trim).filter(|line| !line.is_empty()) {
        let (request, expected) = line.split_once(" > ").expect("a request and its answer");
        assert_eq!(answer(machine, request), expected, "at: {request}");
    }
}

fn expect(script: &str) {
    expect_on(&mut Machine::new(), script);
}

fn send(machine: &mut Machine, sender: usize, command: Command) -> Answer {
    machine.perform(&Request::Send { sender, command }).answer
}

/// A fence for the harts of a mask; fences with different starts are different commands.
fn fence(mask: usize, start: usize) -> Command {
    Command { kind: 3, mask, base: 0, start, size: 4096, tag: 0 }
}

fn queue_len(machine: &Machine, hart: usize) -> usize {
    machine.queue(hart).expect("there is such a hart").len()
}

#[test]
fn p1_whole_run() {
    expect(
        "setup 2 2 0 4096 8192 0 0 > 0
         steal 0 0 > 0 0
         steal 0 1 > 2
         steal 1 1 > 3
         start 1 64 7 > 0
         broadcast 0 1 3 0 0 0 0 > did 0 1 3 0 0 0 0 / 0 0
         steal 1 1 > 0 0
         broadcast 0 1 3 0 0 0 0 > did 0 1 3 0 0 0 0 / 0 2
         resume 1 > did 1 1 3 0 0 0 0 / 0 run
         return 0 > 0",
    );
}

#[test]
fn p2_touching_regions_are_both_added() {
    expect(
        "setup 1 1 0 0 0 0 0 > 0
         add 4096 4096 > 0
         add 8192 4096 > 0
         defined 4096 4096 > 0 1
         defined 8192 4096 > 0 1
         defined 4096 8192 > 0 0",
    );
}

#[test]
fn p3_an_empty_region_overlaps_only_what_it_lies_inside() {
    expect(
        "setup 1 1 0 0 0 0 0 > 0
         add 4096 4096 > 0
         add 4096 0 > 0
         add 4096 0 > 0
         add 5000 0 > 10",
    );
}

#[test]
fn p4_an_empty_region_removes_only_what_it_lies_inside() {
    expect(
        "setup 1 1 0 0 0 0 0 > 0
         add 4096 4096 > 0
         remove 5000 0 > 0
         defined 4096 4096 > 0 0
         add 4096 0 > 0
         remove 4096 0 > 0
         defined 4096 0 > 0 1",
    );
}

#[test]
fn p5_the_last_address_starts_only_an_empty_region() {
    expect(
        "setup 1 1 0 0 0 0 0 > 0
         add 18446744073709551615 0 > 0
         add 18446744073709551615 1 > 11
         remove 18446744073709551615 1 > 11
         defined 18446744073709551615 1 > 11
         defined 18446744073709551615 0 > 0 1",
    );
}

/// The harts below 1,024 that a mask selects, by a command of some kind that uses one.
fn selected(kind: usize, mask: usize, base: usize) -> Vec<usize> {
    let command = Command { kind, mask, base, ..Command::default() }.to_remote_command().expect("well formed");
    (0..1024).filter(|hart| command.is_hart_selected(*hart)).collect()
}

#[test]
fn p6_selection_at_the_edges() {
    assert_eq!(selected(1, 1, 63), [63]);
    assert_eq!(selected(1, 1 << 63, 1), [64]);
    assert_eq!(selected(1, 1 << 63, 0), [63]);
    assert_eq!(selected(1, usize::MAX, usize::MAX - 1), []);
    assert_eq!(selected(1, 0b101, 1023), [1023]);
}

#[test]
fn every_kind_selects_by_every_bit() {
    for kind in 1..=5 {
        assert_eq!(selected(kind, 0, usize::MAX).len(), 1024);
        assert_eq!(selected(kind, usize::MAX, 100), (100..164).collect::<Vec<_>>());
        for bit in 0..64 {
            assert_eq!(selected(kind, 1 << bit, 0), [bit]);
            assert_eq!(selected(kind, 1 << bit, 960), [960 + bit]);
            assert_eq!(selected(kind, !(1 << bit), 500), (500..564).filter(|h| *h != 500 + bit).collect::<Vec<_>>());
        }
    }
    assert_eq!(selected(6, 0, 0).len(), 1024);
}

#[test]
fn every_hardware_hart_has_its_bit() {
    let mut machine = Machine::with_room(1024, 64);
    expect_on(&mut machine, "setup 64 64 0 0 0 0 0 > 0");
    for hart in 0..64 {
        if hart != 0 {
            assert_eq!(machine.perform(&Request::Start { hart, address: 0, opaque: 0 }).answer, Answer::Done);
        }
        assert_eq!(machine.perform(&Request::Steal { hart, hardware_hart: 63 - hart }).answer, Answer::Mask(0));
        assert_eq!(send(&mut machine, 64, fence(1 << hart, 0)), Answer::Mask(1 << (63 - hart)));
    }
    assert_eq!(send(&mut machine, 64, fence(usize::MAX, 0)), Answer::Mask(usize::MAX));
    assert_eq!(send(&mut machine, 0, fence(usize::MAX, 0)), Answer::Mask(usize::MAX >> 1));
}

/// a0, a1, mepc, vsatp, mstatus and vsstatus of a hart.
fn registers(hart: &ConfidentialHart) -> [usize; 6] {
    let (gprs, csrs) = (hart.gprs(), hart.csrs());
    [
        gprs.read(a0),
        gprs.read(a1),
        csrs.mepc.read_from_main_memory(),
        csrs.vsatp.read_from_main_memory(),
        csrs.mstatus.read_from_main_memory(),
        csrs.vsstatus.read_from_main_memory(),
    ]
}

#[test]
fn p7_start_clears_the_interrupt_bits() {
    let mut machine = Machine::new();
    expect_on(
        &mut machine,
        "setup 1 1 0 0 0 0 7 > 0
         steal 0 0 > 0 0
         stop 0 > 0
         return 0 > 0
         start 0 64 9 > 0
         steal 0 0 > 0 0",
    );
    assert_eq!(registers(machine.on(0)), [0, 9, 64, 0, 549755815938, 5]);
}

#[test]
fn start_changes_no_other_bit() {
    let mut hart = ConfidentialHart::from_vm_hart_reset(3);
    hart.set_confidential_vm_id(ConfidentialVmId::new(1));
    let csrs = hart.csrs_mut();
    csrs.vsatp.save_value_in_main_memory(usize::MAX);
    csrs.mstatus.save_value_in_main_memory(usize::MAX);
    csrs.vsstatus.save_value_in_main_memory(usize::MAX);
    hart.transition_from_stopped_to_started(64, 9).expect("the hart is stopped");
    assert_eq!(registers(&hart), [3, 9, 64, 0, usize::MAX - (1 << 5) - (1 << 7), usize::MAX - (1 << 1)]);
}

#[test]
fn registers_after_each_request() {
    let mut machine = Machine::new();
    let mut expect_registers = |line: &str, hardware_hart: usize, expected: [usize; 6]| {
        expect_on(&mut machine, line);
        assert_eq!(registers(machine.on(hardware_hart)), expected, "after: {line}");
    };
    let dummy = [0; 6];
    let boot = [2, 5, 6, 8, 549755815970, 7];
    expect_registers("setup 4 2 2 5 6 8 7 > 0", 1, dummy);
    expect_registers("steal 2 1 > 0 0", 1, boot);
    expect_registers("suspend 1 > 0", 1, boot);
    expect_registers("return 1 > 0", 1, dummy);
    expect_registers("steal 2 0 > 0 0", 0, boot);
    expect_registers("await 0 3 77 78 > 0", 0, boot);
    expect_registers("resume 0 > 0 op 3 77 78", 0, boot);
    let woken = [2, 10, 65, 8, 549755815970, 7];
    expect_registers("wake 0 65 10 > 0", 0, woken);
    expect_registers("broadcast 0 1 15 0 0 0 0 > did 2 1 15 0 0 0 0 / 0 0", 0, woken);
    expect_registers("send 9 4 4 0 1 2 3 > 0 1", 0, woken);
    expect_registers("process 0 > did 2 4 4 0 1 2 3 / 0 1", 0, woken);
    expect_registers("stop 0 > 0", 0, woken);
    expect_registers("return 0 > 0", 0, dummy);
    expect_registers("start 2 66 11 > 0", 0, dummy);
    let started = [2, 11, 66, 0, 549755815938, 5];
    expect_registers("steal 2 0 > 0 0", 0, started);
    expect_registers("off 0 > 0", 0, started);
    expect_registers("start 3 67 12 > 0", 1, dummy);
    expect_registers("steal 3 1 > 0 0", 1, [3, 12, 67, 0, 549755815938, 0]);
}

#[test]
fn p8_a_queue_takes_64_commands() {
    let mut machine = Machine::new();
    expect_on(&mut machine, "setup 1 1 0 0 0 0 0 > 0");
    for start in 0..63 {
        assert_eq!(send(&mut machine, 9, fence(1, start)), Answer::Mask(0));
    }
    assert_eq!(send(&mut machine, 9, fence(1, 62)), Answer::Mask(0));
    assert_eq!(queue_len(&machine, 0), 63, "a duplicate is not added");
    assert_eq!(send(&mut machine, 9, fence(1, 63)), Answer::Mask(0));
    assert_eq!(queue_len(&machine, 0), 64);
    assert_eq!(send(&mut machine, 9, fence(1, 64)), Answer::Refused(8));
    assert_eq!(queue_len(&machine, 0), 64);
}

#[test]
fn p9_a_full_receiver_stops_a_broadcast() {
    let mut machine = Machine::new();
    expect_on(
        &mut machine,
        "setup 4 1 0 0 0 0 0 > 0
         start 1 0 0 > 0
         start 2 0 0 > 0
         start 3 0 0 > 0",
    );
    for start in 0..64 {
        assert_eq!(send(&mut machine, 9, fence(0b100, start)), Answer::Mask(0));
    }
    assert_eq!(send(&mut machine, 9, fence(0b1110, 0)), Answer::Refused(8));
    assert_eq!(machine.queue(1), Some(vec![fence(0b1110, 0)]));
    assert_eq!(queue_len(&machine, 2), 64);
    assert_eq!(machine.queue(3), Some(vec![]));
}

#[test]
fn what_the_sender_did_stands_after_8() {
    let mut machine = Machine::new();
    expect_on(
        &mut machine,
        "setup 2 1 0 0 0 0 0 > 0
         start 1 0 0 > 0
         steal 0 0 > 0 0",
    );
    for start in 0..64 {
        assert_eq!(send(&mut machine, 9, fence(0b10, start)), Answer::Mask(0));
    }
    expect_on(
        &mut machine,
        "broadcast 0 6 0 0 0 0 0 > did 0 6 0 0 0 0 0 / 8
         resume 0 > 0 off
         suspend 0 > 5",
    );
}

#[test]
fn error_1_stealing_onto_a_busy_hardware_hart() {
    let mut machine = Machine::new();
    expect_on(
        &mut machine,
        "setup 2 1 0 0 0 0 0 > 0
         start 1 0 0 > 0
         steal 0 0 > 0 0",
    );
    let before = machine.tables();
    expect_on(&mut machine, "steal 1 0 > panic 15");
    assert_eq!(machine.tables(), before, "the tables are as they were");
    expect_on(
        &mut machine,
        "return 0 > 0
         steal 1 0 > 0 0",
    );
}

#[test]
fn error_2_a_duplicate_does_not_save_a_full_queue() {
    let mut machine = Machine::new();
    expect_on(&mut machine, "setup 1 1 0 0 0 0 0 > 0");
    for start in 0..64 {
        assert_eq!(send(&mut machine, 9, fence(1, start)), Answer::Mask(0));
    }
    assert_eq!(send(&mut machine, 9, fence(1, 63)), Answer::Refused(8));
}

#[test]
fn error_3_a_stolen_hart_that_stopped_itself_is_reached() {
    let mut machine = Machine::new();
    expect_on(
        &mut machine,
        "setup 2 4 0 0 0 0 0 > 0
         steal 0 3 > 0 0
         stop 3 > 0
         status 0 > 0 0
         send 1 1 1 0 0 0 0 > 0 8",
    );
    assert_eq!(queue_len(&machine, 0), 1);
    expect_on(
        &mut machine,
        "return 3 > 0
         status 0 > 0 1
         send 1 2 1 0 0 0 0 > 0 0",
    );
    assert_eq!(queue_len(&machine, 0), 1, "at home and stopped it is passed over");
}

/// Document 01's table: what each change says to each state, and the state afterwards.
#[test]
fn lifecycle_table() {
    const STATES: [(&str, usize); 4] = [("", 0), ("stop 0 > 0", 1), ("suspend 0 > 0", 2), ("off 0 > 0", 3)];
    const CHANGES: [&str; 4] = ["suspend 0", "stop 0", "wake 0 0 0", "off 0"];
    // A refusal's number alone leaves the state; 0 comes with the new one.
    const TABLE: [[(usize, usize); 4]; 4] = [
        [(0, 2), (0, 1), (7, 0), (0, 3)],
        [(5, 1), (6, 1), (7, 1), (0, 3)],
        [(5, 2), (6, 2), (0, 0), (0, 3)],
        [(5, 3), (6, 3), (7, 3), (0, 3)],
    ];
    const START: [(usize, usize); 4] = [(4, 0), (0, 0), (4, 2), (4, 3)];
    for (place, (reach, state)) in STATES.iter().enumerate() {
        let prepare = format!("setup 1 1 0 0 0 0 0 > 0\nsteal 0 0 > 0 0\n{reach}");
        for (change, (number, after)) in CHANGES.iter().zip(TABLE[place]) {
            expect(&format!("{prepare}\n{change} > {number}\nreturn 0 > 0\nstatus 0 > 0 {after}"));
        }
        let (number, after) = START[place];
        expect(&format!("{prepare}\nreturn 0 > 0\nstatus 0 > 0 {state}\nstart 0 0 0 > {number}\nstatus 0 > 0 {after}"));
    }
}

#[test]
fn a_suspended_hart_is_stolen_and_receives() {
    expect(
        "setup 2 2 0 0 0 0 0 > 0
         steal 0 1 > 0 0
         suspend 1 > 0
         return 1 > 0
         status 0 > 0 2
         send 1 1 1 0 0 0 0 > 0 0
         steal 0 0 > 0 0
         status 0 > 0 0
         send 1 2 1 0 0 0 0 > 0 1
         process 0 > did 0 1 1 0 0 0 0 / did 0 2 1 0 0 0 0 / 0 2
         process 0 > 0 0",
    );
}

#[test]
fn a_queued_shutdown_stops_no_command_after_it() {
    expect(
        "setup 1 1 0 0 0 0 0 > 0
         steal 0 0 > 0 0
         await 0 5 1 2 > 0
         send 9 6 0 0 0 0 0 > 0 1
         send 9 1 1 0 0 0 0 > 0 1
         resume 0 > did 0 6 0 0 0 0 0 / did 0 1 1 0 0 0 0 / 0 off
         await 0 1 0 0 > panic 17
         send 9 1 1 0 0 0 0 > 0 1
         process 0 > did 0 1 1 0 0 0 0 / 0 1
         resume 0 > 0 off
         return 0 > 0
         send 9 1 1 0 0 0 0 > 0 0
         steal 0 0 > 3",
    );
}

#[test]
fn a_refused_setup_changes_nothing() {
    expect(
        "setup 2 1 1 0 0 0 0 > 0
         steal 1 0 > 0 0
         setup 9 1 0 0 0 0 0 > 13
         home > 0 0
         setup 2 1 2 0 0 0 0 > 18
         status 0 > 0 1
         setup 9 4 9 0 0 0 0 > 18
         return 0 > 0
         setup 1 1 0 0 0 0 0 > 0
         status 1 > 1",
    );
}

#[test]
fn regions_at_1024_and_1025() {
    let mut machine = Machine::new();
    expect_on(&mut machine, "setup 1 1 0 0 0 0 0 > 0");
    for place in 0..1024 {
        assert_eq!(machine.perform(&Request::Add { base: place * 4096, size: 4096 }).answer, Answer::Done);
    }
    expect_on(
        &mut machine,
        "add 4194304 4096 > 9
         add 0 4096 > 9
         remove 0 4096 > 0
         add 4096 4096 > 10
         add 4194304 4096 > 0
         add 0 4096 > 9
         add 18446744073709551615 1 > 11",
    );
}

#[test]
fn harts_at_1024_and_1025() {
    let mut machine = Machine::with_room(1024, 64);
    expect_on(
        &mut machine,
        "setup 1025 64 0 0 0 0 0 > 18
         setup 1024 65 0 0 0 0 0 > 18
         setup 1024 64 1024 0 0 0 0 > 18
         setup 0 1 0 0 0 0 0 > 18
         setup 1 0 0 0 0 0 0 > 18
         home > 20
         setup 1024 64 1023 0 0 0 0 > 0
         status 1023 > 0 0
         status 1024 > 1
         steal 1023 63 > 0 0
         send 0 1 0 18446744073709551615 0 0 0 > 0 9223372036854775808
         home > 0 0",
    );
}

#[test]
fn refusals_in_document_01s_order() {
    expect(
        "home > 20
         setup 9 65 0 0 0 0 0 > 18
         setup 9 4 0 0 0 0 0 > 13
         setup 8 5 0 0 0 0 0 > 13
         setup 2 2 0 0 0 0 0 > 0
         await 7 6 0 0 > 19
         await 7 5 0 0 > 14
         await 1 5 0 0 > 16
         broadcast 7 7 0 0 0 0 0 > 19
         broadcast 7 6 1 0 0 0 0 > 19
         broadcast 7 2 1 0 1 0 0 > 19
         broadcast 7 3 1 0 1 1 1 > 19
         broadcast 7 1 1 0 0 0 0 > 14
         broadcast 1 1 1 0 0 0 0 > 16
         steal 9 2 > 14
         steal 0 0 > 0 0
         steal 9 0 > panic 15
         steal 9 1 > 1
         start 2 0 0 > 1
         start 0 0 0 > 2
         return 1 > panic 16
         return 2 > 14
         suspend 0 > 0
         suspend 0 > 5
         stop 0 > 6
         wake 0 1 2 > 0
         wake 0 1 2 > 7
         await 0 1 7 8 > 0
         await 0 0 7 8 > 19
         await 0 2 7 8 > panic 17
         resume 0 > 0 op 1 7 8
         resume 0 > 0 run
         await 0 5 1 2 > 0
         off 0 > 0
         resume 0 > 0 off
         process 0 > 0 0
         return 0 > 0
         steal 0 0 > 3
         start 0 0 0 > 4
         allow 5 > 0
         allow 8 > 0
         start 1 0 0 > 0
         steal 1 0 > 0 13",
    );
}
