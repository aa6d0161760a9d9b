//! What holds of every trace that the generator makes, and of lines in no form.
use oracle::core::architecture::HartLifecycleState;
use oracle::driver::generator::Generator;
use oracle::driver::{Answer, Command, Machine, Request};
use std::collections::{BTreeSet, HashSet};

/// Each line of a trace with the machine before it. Generator and machine share a thread's storage, so the trace is made first.
fn trace(seed: u64, lines: usize) -> Vec<Vec<u8>> {
    let mut generator = Generator::new(seed);
    (0..lines).map(|_| generator.line()).collect()
}

#[test]
fn a_seed_makes_one_trace() {
    assert_eq!(trace(7, 3000), trace(7, 3000));
    assert_ne!(trace(7, 3000), trace(8, 3000));
}

#[test]
fn a_line_in_form_is_the_line_of_its_request() {
    for line in trace(1, 20_000) {
        if let Some(request) = Request::parse(&line) {
            assert_eq!(request.render().as_bytes(), line);
        }
    }
}

#[test]
fn lines_in_no_form() {
    let bad: [&[u8]; 26] = [
        b"",
        b"\t",
        b" ",
        b"\r",
        b"\0",
        b"hom",
        b"homes",
        b"Home",
        b"home\t",
        b"home\r",
        b"home ",
        b"\thome",
        b"home\t0",
        b"steal\t0",
        b"steal\t0\t0\t0",
        b"steal\t0\t\t0",
        b"steal 0 0",
        b"status\t",
        b"status\t00",
        b"status\t01",
        b"status\t+1",
        b"status\t-1",
        b"status\t1 ",
        b"status\t18446744073709551616",
        b"status\t1\0",
        b"setup\t1\t1\t0\t0\t0\t0\t0\t0",
    ];
    let mut machine = Machine::new();
    assert_eq!(machine.line(b"setup\t1\t1\t0\t0\t0\t0\t0").answer, Answer::Done);
    for line in bad {
        assert_eq!(machine.line(line).answer, Answer::Refused(20), "{}", line.escape_ascii());
    }
    assert_eq!(machine.line(b"status\t18446744073709551615").answer, Answer::Refused(1));
    assert_eq!(machine.line(b"status\t0").answer, Answer::State(0));
}

/// Panics aside: what is put back after them cannot show here.
#[test]
fn a_refusal_changes_nothing_but_after_8() {
    for seed in 1..=4 {
        let mut machine = Machine::new();
        for line in trace(seed, 5000) {
            let before = machine.tables();
            let outcome = machine.line(&line);
            if matches!(outcome.answer, Answer::Refused(number) if number != 8) {
                assert_eq!(machine.tables(), before, "{}", line.escape_ascii());
                assert_eq!(outcome.did, [], "{}", line.escape_ascii());
            }
        }
    }
}

/// Who gets a broadcast, in which order, what stops it and what it answers, worked out plainly beside the Rust.
#[test]
fn a_broadcast_delivers_as_document_01_says() {
    let mut refused = 0;
    for seed in 1..=4 {
        let mut machine = Machine::new();
        for line in trace(seed, 5000) {
            let Some((sender, command)) = broadcast(&machine, &line) else {
                machine.line(&line);
                continue;
            };
            let mut queues = queues(&machine);
            let mut expected = Answer::Mask(0);
            for (hart, queue) in queues.iter_mut().enumerate() {
                let holder = (0..machine.hardware_harts()).find(|k| holds(&machine, *k) == Some(hart));
                let executable = matches!(machine.state(hart), Some(HartLifecycleState::Started | HartLifecycleState::Suspended));
                if hart == sender || !selects(command, hart) || !(holder.is_some() || executable) {
                    continue;
                }
                if queue.len() == 64 {
                    expected = Answer::Refused(8);
                    refused += 1;
                    break;
                }
                if !queue.contains(&command) {
                    queue.push(command);
                }
                if let (Answer::Mask(mask), Some(hardware_hart)) = (&mut expected, holder) {
                    *mask |= 1 << hardware_hart;
                }
            }
            assert_eq!(machine.line(&line).answer, expected, "{}", line.escape_ascii());
            assert_eq!(self::queues(&machine), queues, "{}", line.escape_ascii());
        }
    }
    assert!(refused > 100, "the traces meet full queues");
}

/// The sender and the command of a broadcast that comes as far as the queues.
fn broadcast(machine: &Machine, line: &[u8]) -> Option<(usize, Command)> {
    let (sender, command) = match Request::parse(line)? {
        Request::Send { sender, command } => (sender, command),
        Request::Broadcast { hardware_hart, command } if hardware_hart < machine.hardware_harts() => {
            (holds(machine, hardware_hart)?, command)
        }
        _ => return None,
    };
    (machine.is_set_up() && command.to_remote_command().is_some()).then_some((sender, command))
}

fn selects(command: Command, hart: usize) -> bool {
    let Command { kind, mask, base, .. } = command;
    kind == 6 || base == usize::MAX || (base <= hart && hart - base < 64 && mask / 2usize.pow((hart - base) as u32) % 2 == 1)
}

/// The confidential hart on a hardware hart.
fn holds(machine: &Machine, hardware_hart: usize) -> Option<usize> {
    let held = machine.on(hardware_hart);
    (!held.is_dummy()).then(|| held.confidential_hart_id())
}

fn queues(machine: &Machine) -> Vec<Vec<Command>> {
    (0..).map_while(|hart| machine.queue(hart)).collect()
}

/// The Rust panics exactly where document 01 refuses with 15, with 16 (but in await and broadcast) or with 17.
#[test]
fn a_panic_is_an_assert_of_the_rust() {
    let mut panics = BTreeSet::new();
    for seed in 1..=4 {
        let mut machine = Machine::new();
        for line in trace(seed, 5000) {
            let number = Request::parse(&line).and_then(|request| asserted(&machine, request));
            let answer = machine.line(&line).answer;
            let panicked = if let Answer::Panic(number) = answer { Some(number) } else { None };
            assert_eq!(panicked, number, "{}", line.escape_ascii());
            panics.extend(number);
        }
    }
    assert_eq!(panics, BTreeSet::from([15, 16, 17]));
}

fn asserted(machine: &Machine, request: Request) -> Option<usize> {
    let busy = |k: usize| k < machine.hardware_harts() && !machine.on(k).is_dummy();
    let idle = |k: usize| k < machine.hardware_harts() && machine.on(k).is_dummy();
    match request {
        Request::Steal { hardware_hart, .. } if busy(hardware_hart) => Some(15),
        Request::Return { hardware_hart }
        | Request::Suspend { hardware_hart }
        | Request::Stop { hardware_hart }
        | Request::Wake { hardware_hart, .. }
        | Request::Off { hardware_hart }
        | Request::Process { hardware_hart }
        | Request::Resume { hardware_hart }
            if idle(hardware_hart) =>
        {
            Some(16)
        }
        Request::Await { hardware_hart, kind: 1..=5, .. }
            if busy(hardware_hart) && machine.on(hardware_hart).clone().take_resumable_operation().is_some() =>
        {
            Some(17)
        }
        _ => None,
    }
}

#[test]
fn a_trace_reaches_what_it_is_for() {
    let mut numbers = BTreeSet::new();
    let (mut lengths, mut accepted) = (BTreeSet::new(), HashSet::new());
    for seed in 1..=4 {
        let mut machine = Machine::new();
        for line in trace(seed, 5000) {
            let answer = machine.line(&line).answer;
            if let Answer::Refused(number) = answer {
                numbers.insert(number);
            } else {
                accepted.insert(std::mem::discriminant(&answer));
            }
            lengths.extend((0..8).filter_map(|hart| machine.queue(hart)).map(|queue| queue.len()));
        }
    }
    // 9 needs 1,024 regions and 12 damaged tables; 15 and 17 are panics of the Rust.
    assert_eq!(numbers, BTreeSet::from([1, 2, 3, 4, 5, 6, 7, 8, 10, 11, 13, 14, 16, 18, 19, 20]));
    assert_eq!(accepted.len(), 9, "each form of answer, and panic");
    assert!([0, 1, 63, 64].iter().all(|length| lengths.contains(length)));
    assert_eq!(lengths.last(), Some(&64));
}
