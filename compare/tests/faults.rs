//! The comparison can fail: entries with one fault each are found out, by a sequence of as few steps as it takes. The number of steps is
//! worked out by hand. Also: what was not seen is named.
use compare::draw::MAX;
use compare::entries::{Entry, by_c};
use compare::pair::Step;
use compare::runs::Run;
use compare::runs::exhaustive::alphabet;
use compare::runs::lines::run_program;
use compare::runs::sequences::sequence;
use compare::seen::{KINDS, Seen, kind};
use compare::shortest::Disagreement;
use compare::tables::{Table, Tables};
use compare::{EFFECT_WORDS, HART_WORDS, QUEUE_WORDS};
use oracle::driver::{Command, Request};
use std::fs;
use std::path::Path;

/// The words of a hart's queue.
fn queue(tables: &mut Tables, hart: usize) -> &mut [u64] {
    &mut tables.queues[hart * QUEUE_WORDS..][..QUEUE_WORDS]
}

/// Puts a command last in a queue that has room, whether or not it waits there.
fn append(queue: &mut [u64], command: Command) {
    let count = queue[0] as usize;
    if count < 64 {
        queue[1 + 6 * count..][..6].copy_from_slice(&command.numbers().map(|number| number as u64));
        queue[0] += 1;
    }
}

/// A steal leaves the home row as it was.
fn steal_leaves_the_home_row(tables: &mut Tables, request: &Request, effects: &mut [u64], value: &mut [u64]) -> u64 {
    let before = tables.clone();
    let number = by_c(tables, request, effects, value);
    if matches!(request, Request::Steal { .. }) && number == 0 {
        tables.home = before.home;
    }
    number
}

/// A steal does not ask whether the hardware hart is busy.
fn steal_takes_a_busy_hardware_hart(tables: &mut Tables, request: &Request, effects: &mut [u64], value: &mut [u64]) -> u64 {
    match (by_c(tables, request, effects, value), request) {
        (15, Request::Steal { hart, .. }) if *hart >= tables.sizes().0 => 1,
        (15, _) => 2,
        (number, _) => number,
    }
}

/// A return that is refused for want of a hardware hart writes a word of the head.
fn refused_return_writes_the_head(tables: &mut Tables, request: &Request, effects: &mut [u64], value: &mut [u64]) -> u64 {
    let number = by_c(tables, request, effects, value);
    if matches!(request, Request::Return { .. }) && number == 14 {
        tables.head[2] ^= 1;
    }
    number
}

/// An allow changes a word past the end of the home rows.
fn allow_writes_past_the_home_rows(tables: &mut Tables, request: &Request, effects: &mut [u64], value: &mut [u64]) -> u64 {
    let number = by_c(tables, request, effects, value);
    if matches!(request, Request::Allow { .. }) && number == 0 {
        let end = tables.sizes().0 * HART_WORDS;
        tables.home[end..].iter_mut().take(1).for_each(|word| *word ^= 1);
    }
    number
}

/// A second await is answered 16.
fn second_await_is_16(tables: &mut Tables, request: &Request, effects: &mut [u64], value: &mut [u64]) -> u64 {
    match by_c(tables, request, effects, value) {
        17 => 16,
        number => number,
    }
}

/// A process that does two commands or more writes a word past its records.
fn process_writes_past_its_records(tables: &mut Tables, request: &Request, effects: &mut [u64], value: &mut [u64]) -> u64 {
    let number = by_c(tables, request, effects, value);
    if matches!(request, Request::Process { .. }) && number == 0 && value[0] >= 2 {
        effects[value[0] as usize * EFFECT_WORDS..].iter_mut().take(1).for_each(|word| *word ^= 1);
    }
    number
}

/// A steal gives a wrong mask once one is allowed.
fn steal_gives_a_wrong_mask(tables: &mut Tables, request: &Request, effects: &mut [u64], value: &mut [u64]) -> u64 {
    let number = by_c(tables, request, effects, value);
    if matches!(request, Request::Steal { .. }) && number == 0 && tables.head[2] != 0 {
        value[0] ^= 1;
    }
    number
}

/// A status tells the lifecycle of a held hart.
fn status_looks_through_the_dummy(tables: &mut Tables, request: &Request, effects: &mut [u64], value: &mut [u64]) -> u64 {
    let number = by_c(tables, request, effects, value);
    if let (Request::Status { hart }, 0) = (request, number) {
        let home = tables.home_row(*hart);
        if home[0] == 0 {
            value[0] = tables.hardware_row(home[1] as usize)[2];
        }
    }
    number
}

/// A broadcast that its sender does is queued for it too.
fn broadcast_queues_for_its_sender(tables: &mut Tables, request: &Request, effects: &mut [u64], value: &mut [u64]) -> u64 {
    let number = by_c(tables, request, effects, value);
    if let (Request::Broadcast { hardware_hart, command }, 0) = (request, number)
        && value[0] == 1
    {
        let sender = tables.hardware_row(*hardware_hart)[1] as usize;
        append(queue(tables, sender), *command);
    }
    number
}

/// A send puts a command last that waits already.
fn send_queues_a_second_copy(tables: &mut Tables, request: &Request, effects: &mut [u64], value: &mut [u64]) -> u64 {
    let before = tables.clone();
    let number = by_c(tables, request, effects, value);
    if let (Request::Send { sender, command }, 0) = (request, number) {
        let numbers = command.numbers().map(|number| number as u64);
        for hart in (0..tables.sizes().0).filter(|hart| hart != sender) {
            let waits = before.queue(hart)[1..].chunks(6).any(|place| place == numbers);
            let selected = command.to_remote_command().expect("it was done").is_hart_selected(hart);
            if waits && selected && tables.home_row(hart)[2] % 2 == 0 {
                append(queue(tables, hart), *command);
            }
        }
    }
    number
}

/// A remove leaves the words of the last region that it drops.
fn remove_leaves_a_place(tables: &mut Tables, request: &Request, effects: &mut [u64], value: &mut [u64]) -> u64 {
    let before = tables.clone();
    let number = by_c(tables, request, effects, value);
    if tables.head[3] < before.head[3] && matches!(request, Request::Remove { .. }) {
        let last = 2 * before.head[3] as usize - 2;
        tables.regions[last..][..2].copy_from_slice(&before.regions[last..][..2]);
    }
    number
}

/// A status that is refused gives a value.
fn refused_status_gives_a_value(tables: &mut Tables, request: &Request, effects: &mut [u64], value: &mut [u64]) -> u64 {
    let number = by_c(tables, request, effects, value);
    if matches!(request, Request::Status { .. }) && number == 1 {
        value[0] = 0;
    }
    number
}

/// Process and resume ask for room for 63 records.
fn room_for_63_is_enough(tables: &mut Tables, request: &Request, effects: &mut [u64], value: &mut [u64]) -> u64 {
    let is_short = (63 * EFFECT_WORDS..64 * EFFECT_WORDS).contains(&effects.len());
    if is_short && matches!(request, Request::Process { .. } | Request::Resume { .. }) {
        let mut room = [&effects[..], &[0; EFFECT_WORDS]].concat();
        let number = by_c(tables, request, &mut room, value);
        let words = effects.len();
        effects.copy_from_slice(&room[..words]);
        return number;
    }
    by_c(tables, request, effects, value)
}

/// A queue of 65 counts as empty where the tables are judged.
fn a_queue_of_65_is_overlooked(tables: &mut Tables, request: &Request, effects: &mut [u64], value: &mut [u64]) -> u64 {
    if tables.queues[0] != 65 {
        return by_c(tables, request, effects, value);
    }
    tables.queues[0] = 0;
    let number = by_c(tables, request, effects, value);
    tables.queues[0] = 65;
    number
}

/// A send that is refused for a full queue takes back what lower harts got.
fn a_refused_send_is_taken_back(tables: &mut Tables, request: &Request, effects: &mut [u64], value: &mut [u64]) -> u64 {
    let before = tables.clone();
    let number = by_c(tables, request, effects, value);
    if number == 8 {
        tables.queues = before.queues;
    }
    number
}

/// A send of a command that waits in a full queue is done: the test for a duplicate comes first.
fn a_duplicate_is_taken_by_a_full_queue(tables: &mut Tables, request: &Request, effects: &mut [u64], value: &mut [u64]) -> u64 {
    match (by_c(tables, request, effects, value), request) {
        (8, Request::Send { command, .. }) => {
            let numbers = command.numbers().map(|number| number as u64);
            let waits = queue(tables, 0)[1..].chunks(6).any(|place| place == numbers);
            if waits { 0 } else { 8 }
        }
        (number, _) => number,
    }
}

/// An entry with a fault, seeds and a size of sequences in which it shows, the steps of the shortest, and what is in the text of the last step
/// and of the complaint.
struct Fault {
    entry: Entry,
    seeds: &'static [u64],
    size: (usize, usize),
    shortest: usize,
    last: &'static str,
    complaint: &'static str,
}

const STEPS: usize = 2000;

/// Each takes a setup: before it every other request is 12. The one hart of a VM is its boot hart, which may be stolen at once.
const FAULTS: [Fault; 13] = [
    // Setup, steal.
    Fault {
        entry: steal_leaves_the_home_row,
        seeds: &[0, 1, 2],
        size: (1, 1),
        shortest: 2,
        last: "steal 0 0",
        complaint: "word 0 of home is 1 in ours and should be 0",
    },
    // Setup, a steal that makes the hardware hart busy, and a steal of any hart.
    Fault {
        entry: steal_takes_a_busy_hardware_hart,
        seeds: &[0, 1, 2],
        size: (1, 1),
        shortest: 3,
        last: "steal ",
        complaint: "the original 15, document 01 15",
    },
    // Setup, and a return by a hardware hart that does not exist.
    Fault {
        entry: refused_return_writes_the_head,
        seeds: &[0, 1, 2],
        size: (8, 4),
        shortest: 2,
        last: "return ",
        complaint: "word 2 of head is 1 in ours and should be 0",
    },
    // Setup, allow. With these seeds a word past the home rows is lent.
    Fault {
        entry: allow_writes_past_the_home_rows,
        seeds: &[1, 2, 3],
        size: (2, 1),
        shortest: 2,
        last: "allow ",
        complaint: "word 24 of home is",
    },
    // Setup, and the status of a hart that does not exist.
    Fault {
        entry: refused_status_gives_a_value,
        seeds: &[0, 1, 2],
        size: (2, 1),
        shortest: 2,
        last: "status ",
        complaint: "word 0 of the values is 0 in ours",
    },
    // Setup, and process or resume on any hardware hart with one word too few: 13 comes before 14 and 16.
    Fault {
        entry: room_for_63_is_enough,
        seeds: &[0, 1, 2],
        size: (1, 1),
        shortest: 2,
        last: " (with 447 words for effects)",
        complaint: "document 01 13",
    },
    // Setup, steal, and two awaits.
    Fault {
        entry: second_await_is_16,
        seeds: &[0, 1, 2],
        size: (1, 1),
        shortest: 4,
        last: "await 0 ",
        complaint: "ours gives 16, the original 17, document 01 17",
    },
    // Setup, steal, two commands for the hart, each by a request of its own, and process. With seeds 5 and 18 one order of leaving out steps is
    // not enough: it can end at a sequence where another hart broadcasts the commands and then makes way.
    Fault {
        entry: process_writes_past_its_records,
        seeds: &[3, 4, 5, 18],
        size: (2, 1),
        shortest: 5,
        last: "process 0",
        complaint: "word 14 of the effects is",
    },
    // Setup, an allow of some bits, and steal.
    Fault {
        entry: steal_gives_a_wrong_mask,
        seeds: &[0, 1, 2],
        size: (1, 1),
        shortest: 3,
        last: "steal 0 0",
        complaint: "word 0 of the values is",
    },
    // Setup, steal, one change that leaves Started, and status.
    Fault {
        entry: status_looks_through_the_dummy,
        seeds: &[0, 1, 2],
        size: (1, 1),
        shortest: 4,
        last: "status 0",
        complaint: "word 0 of the values is",
    },
    // Setup, steal, and a broadcast that selects its sender.
    Fault {
        entry: broadcast_queues_for_its_sender,
        seeds: &[0, 1, 2],
        size: (1, 1),
        shortest: 3,
        last: "broadcast 0 ",
        complaint: "word 0 of queues is 1 in ours and should be 0",
    },
    // Setup, and the same command twice for the boot hart, which is Started. With seeds 1 and 14 no steps left out lead there: one that was sent
    // once has to be sent again.
    Fault {
        entry: send_queues_a_second_copy,
        seeds: &[1, 2, 14],
        size: (8, 4),
        shortest: 3,
        last: "send ",
        complaint: "of queues is 2 in ours and should be 1",
    },
    // Setup, the add of a region, and a remove that drops it.
    Fault { entry: remove_leaves_a_place, seeds: &[0, 1, 2], size: (2, 1), shortest: 3, last: "remove ", complaint: "of regions is" },
];

#[test]
fn a_fault_is_found_out_by_the_shortest_sequence() {
    for (place, fault) in FAULTS.iter().enumerate() {
        for &seed in fault.seeds {
            let Err(found) = sequence(seed, fault.size, STEPS, fault.entry) else { panic!("fault {place} does not show with seed {seed}") };
            assert_eq!(found.steps.len(), fault.shortest, "fault {place}, seed {seed}: {found}");
            let text = found.to_string();
            let lines: Vec<_> = text.lines().collect();
            let [_, .., last, complaint] = lines[..] else { panic!("fault {place}, seed {seed}: {found}") };
            assert!(last.contains(fault.last) && complaint.contains(fault.complaint), "fault {place}, seed {seed}: {found}");
        }
    }
}

#[test]
fn without_a_fault_the_same_sequences_show_none() {
    for fault in &FAULTS {
        for &seed in fault.seeds {
            sequence(seed, fault.size, STEPS, by_c).unwrap_or_else(|found| panic!("seed {seed}: {found}"));
        }
    }
}

/// Takes steps from tables that are all 7 until the fault shows, and gives the shortest sequence.
fn shortest_of(entry: Entry, (n, m): (usize, usize), steps: Vec<Step>) -> Disagreement {
    let mut run = Run::new(Tables::filled(Tables::needed(n, m), || 7), entry);
    let found = steps.into_iter().find_map(|step| run.take(step).err());
    *found.expect("the fault shows")
}

fn setup(harts: usize, hardware_harts: usize) -> Step {
    Request::Setup { harts, hardware_harts, boot: 0, a1: 0, mepc: 0, vsatp: 0, vsstatus: 0 }.into()
}

/// A fence that no hart sends.
fn send(mask: usize, start: usize) -> Step {
    Request::Send { sender: MAX, command: Command { kind: 3, mask, base: 0, start, size: 1, tag: 0 } }.into()
}

#[test]
fn damage_is_told_with_its_sequence() {
    let steps = vec![
        setup(1, 1),
        Request::Steal { hart: 0, hardware_hart: 0 }.into(),
        Request::Allow { bits: 5 }.into(),
        Step::Resize { table: Table::Home, words: 20 },
        send(1, 0),
        Request::Process { hardware_hart: 0 }.into(),
        Step::Replace { table: Table::Queues, place: 0, words: vec![65] },
        Request::Home.into(),
    ];
    // A setup on tables with that count is not judged, but leaves the count as it was.
    let found = shortest_of(a_queue_of_65_is_overlooked, (1, 1), steps);
    let text = "On tables of [4, 12, 12, 385, 2048] words, steps of which none can be left out:
    (from word 0 of queues on stands [65])
    setup 1 1 0 0 0 0 0
At the last: word 0 of queues is 65 in ours and should be 0";
    assert_eq!(found.to_string(), text);
}

#[test]
fn no_command_that_fills_a_queue_can_be_left_out() {
    // Hart 2 must be started. A request adds one command to its queue: 64 fill it, and one more goes to hart 0 and is refused by hart 2. With the
    // setup that makes 67. What goes to others, twice or to nobody can be left out.
    let mut steps = vec![setup(3, 1)];
    steps.extend([1, 2].map(|hart| Request::Start { hart, address: 1, opaque: 2 }.into()));
    for start in 0..64 {
        steps.push(send(4, start));
        match start % 4 {
            0 => steps.push(send(2, start)),
            1 => steps.push(send(4, start)),
            2 => steps.push(send(8, start)),
            _ => steps.push(Request::Status { hart: 2 }.into()),
        }
    }
    steps.push(send(7, 64));
    let found = shortest_of(a_refused_send_is_taken_back, (3, 1), steps);
    assert_eq!(found.steps.len(), 67, "{found}");
    assert!(
        found
            .to_string()
            .ends_with("    send 18446744073709551615 3 7 0 64 1 0\nAt the last: word 0 of queues is 0 in ours and should be 1")
    );
    // Hart 0 is Started by the setup: the setup, 64 that fill its queue, and one of them again. The number alone differs.
    let fill = (0..64).flat_map(|start| [send(1, start), send(2, start)]);
    let steps = [setup(2, 1)].into_iter().chain(fill).chain([send(3, 100), send(1, 30)]).collect();
    let found = shortest_of(a_duplicate_is_taken_by_a_full_queue, (2, 1), steps);
    assert_eq!(found.steps.len(), 66, "{found}");
    assert!(
        found.to_string().ends_with("    send 18446744073709551615 3 1 0 30 1 0\nAt the last: ours gives 0, the original 8, document 01 8")
    );
}

/// The C function of each kind of request, without its prefix.
const FUNCTIONS: [(&str, &str); 19] = [
    ("setup", "new"),
    ("steal", "steal_confidential_hart"),
    ("return", "return_confidential_hart"),
    ("start", "start_confidential_hart"),
    ("suspend", "suspend_confidential_hart"),
    ("stop", "stop_confidential_hart"),
    ("wake", "resume_confidential_hart"),
    ("off", "shutdown_confidential_hart"),
    ("status", "confidential_hart_lifecycle_state"),
    ("await", "set_resumable_operation"),
    ("process", "process_confidential_hart_remote_commands"),
    ("resume", "resume_confidential_hart_execution"),
    ("broadcast", "flow_broadcast_remote_command"),
    ("send", "broadcast_remote_command"),
    ("allow", "allow_external_interrupt"),
    ("add", "add_mmio_region"),
    ("remove", "remove_mmio_region"),
    ("defined", "is_mmio_region_defined"),
    ("home", "is_vm_executing"),
];

/// Each kind of request with each number that the C header says its function gives, and a bad line with 20.
fn possible() -> Vec<(&'static str, u64)> {
    let header = fs::read_to_string(Path::new(env!("CARGO_MANIFEST_DIR")).join("../include/oudrameng.h")).expect("the header is there");
    let header = header.split_whitespace().collect::<Vec<_>>().join(" ");
    let mut all = Vec::new();
    for (kind, function) in FUNCTIONS {
        let (before, _) = header.split_once(&format!(" oudrameng_{function}( ")).expect("the header declares it");
        let (_, gives) = before.rsplit_once("Gives ").expect("the comment says what it gives");
        let mut numbers: Vec<u64> = gives.split(|c: char| !c.is_ascii_digit()).filter_map(|digits| digits.parse().ok()).collect();
        // The type of the function stands between its comment and its name.
        assert_eq!(numbers.pop(), Some(64), "{function}");
        numbers.sort();
        numbers.dedup();
        all.extend(numbers.into_iter().map(|number| (kind, number)));
    }
    all.push(("bad line", 20));
    all
}

/// Each of these answers once.
fn seen(answers: &[(&str, u64)]) -> Seen {
    let mut seen = Seen::default();
    for (name, number) in answers {
        let kind = KINDS.iter().position(|(kind, _)| kind == name).expect("there is such a kind");
        seen.count(kind, *number, false);
    }
    seen
}

#[test]
fn what_was_not_seen_and_what_cannot_be_is_named() {
    let all = possible();
    assert_eq!(seen(&all).gaps(), Vec::<String>::new());
    assert_eq!(Seen::default().gaps(), all.iter().map(|(name, number)| format!("{name} was never answered {number}")).collect::<Vec<_>>());
    // Each one that is missing, and each other number.
    for missing in &all {
        let others: Vec<_> = all.iter().copied().filter(|one| one != missing).collect();
        assert_eq!(seen(&others).gaps(), [format!("{} was never answered {}", missing.0, missing.1)]);
    }
    for (name, number) in KINDS.iter().flat_map(|(name, _)| (0..21).map(move |number| (*name, number))) {
        if !all.contains(&(name, number)) {
            let mut more = seen(&all);
            more.add(&seen(&[(name, number), (name, number)]));
            assert_eq!(more.gaps(), [format!("{name} was answered {number}, which it cannot be, 2 times")]);
        }
    }
}

#[test]
fn a_program_that_differs_is_told_with_the_shortest_lines() {
    let found = |script, lines| run_program((Path::new("awk"), &[script]), 1, lines).expect_err("it differs");
    // Every line is answered 20, and the first that must not be is a setup.
    let text = found("{ print 20 }", 1000);
    let lines: Vec<_> = text.lines().collect();
    assert!(lines.len() == 3 && lines[1].starts_with("    setup\t"), "{text}");
    assert_eq!(lines[2], r#"At the last: the program goes on with "20", the original with "0\n""#);
    // The first three lines are answered 20 rightly, and one answer more is printed.
    let text = found("{ print 20 } END { print 20 }", 3);
    assert!(text.ends_with("the program prints more than the original"), "{text}");
}

#[test]
fn a_request_is_counted_under_its_word() {
    let requests = alphabet();
    let mut kinds: Vec<_> = requests.iter().map(kind).collect();
    for (request, &kind) in requests.iter().zip(&kinds) {
        assert_eq!(Some(KINDS[kind].0), request.render().split('\t').next());
    }
    // Every kind of request is there.
    kinds.sort();
    kinds.dedup();
    assert_eq!(kinds, (0..KINDS.len() - 1).collect::<Vec<_>>());
}
