//! Scenarios whose numbers were worked out by hand from document 01. Each request goes to the proved entries and to the original Rust, and all
//! that both give and hold is compared; the scenarios run with the C functions and with the safe package.
use compare::draw::{EFFECTS_WORDS, MAX, noise};
use compare::entries::{Entry, by_c, by_package};
use compare::pair::{Ask, Given, MOST_VALUE_WORDS, ROOM, Step};
use compare::runs::Run;
use compare::tables::{TABLES, Table, Tables};
use compare::{EFFECT_WORDS, MOST_REGIONS, REPLY_VALUE_WORDS, VALUE_WORDS};
use oracle::driver::{Command, Random, Request};

const ENTRIES: [Entry; 2] = [by_c, by_package];
const SHUTDOWN: Command = Command { kind: 6, mask: 0, base: 0, start: 0, size: 0, tag: 0 };

/// Takes a step, which both must take alike.
fn take(run: &mut Run, step: Step) -> Option<Given> {
    run.take(step).unwrap_or_else(|disagreement| panic!("{disagreement}"))
}

/// What both give to a request that is lent so many words for its effects.
fn ask_with(run: &mut Run, request: Request, effects_words: usize) -> Given {
    let ask = Ask { request, effects_words, value_words: MOST_VALUE_WORDS };
    take(run, Step::Ask(ask)).expect("a request is answered")
}

/// The same with room for all that it may write.
fn ask(run: &mut Run, request: Request) -> Given {
    ask_with(run, request, ROOM)
}

/// 0 and these values, and no command was done.
fn done(values: &[u64]) -> Given {
    Given { number: 0, did: Vec::new(), values: values.to_vec() }
}

/// The record of a command that a hart did.
fn record(hart: u64, command: Command) -> [u64; EFFECT_WORDS] {
    let [kind, mask, base, start, size, tag] = command.numbers().map(|number| number as u64);
    [hart, kind, mask, base, start, size, tag]
}

/// A run on tables of noise.
fn fresh(entry: Entry, n: usize, m: usize) -> Run {
    Run::new(noise(&mut Random::new(1), n, m), entry)
}

fn setup(harts: usize, hardware_harts: usize, boot: usize) -> Request {
    Request::Setup { harts, hardware_harts, boot, a1: 1, mepc: 2, vsatp: 3, vsstatus: 4 }
}

/// A run whose harts all are Started.
fn started(entry: Entry, n: usize, m: usize) -> Run {
    let mut run = fresh(entry, n, m);
    assert_eq!(ask(&mut run, setup(n, m, 0)), done(&[]));
    for hart in 1..n {
        assert_eq!(ask(&mut run, Request::Start { hart, address: 5, opaque: 6 }), done(&[]));
    }
    run
}

/// The same with a hart on hardware hart 0.
fn holding(entry: Entry, n: usize, m: usize, hart: usize) -> Run {
    let mut run = started(entry, n, m);
    assert_eq!(ask(&mut run, Request::Steal { hart, hardware_hart: 0 }), done(&[0]));
    run
}

/// The row of what hardware hart 0 holds.
fn held(run: &Run) -> &[u64] {
    run.tables().hardware_row(0)
}

/// How many commands wait for a hart.
fn waiting(run: &Run, hart: usize) -> u64 {
    run.tables().queue(hart)[0]
}

#[test]
fn a_queue_takes_64_and_the_harts_below_a_full_one_keep_what_they_got() {
    let sizes = [(3, 2), (8, 2), (65, 64)];
    for (entry, (n, m)) in ENTRIES.into_iter().flat_map(|entry| sizes.map(|size| (entry, size))) {
        let last = m - 1;
        let bit = 1 << last;
        for full in 1..n.min(4) {
            let run = &mut started(entry, n, m);
            let to = |mask, start| Request::Send { sender: 0, command: Command { kind: 3, mask, base: 0, start, size: 1, tag: 0 } };
            // One hart is full, and refuses a new command and one that waits. The harts below it get 62.
            for start in 0..64 {
                assert_eq!(ask(run, to(1 << full, start)), done(&[0]));
            }
            assert_eq!([64, 7].map(|start| ask(run, to(1 << full, start))), [8, 8].map(Given::refused));
            assert_eq!(ask(run, Request::Steal { hart: full, hardware_hart: last }), done(&[0]));
            for start in 100..162 {
                assert_eq!(ask(run, to(MAX, start)), Given::refused(8));
            }
            // By turns a new command and one that waits goes to all.
            for (start, count) in [(100, 62), (162, 63), (163, 64), (164, 64), (163, 64)] {
                assert_eq!(ask(run, to(MAX, start)), Given::refused(8));
                assert!((1..full).all(|h| waiting(run, h) == count) && (full + 1..n).all(|h| waiting(run, h) == 0));
            }
            // Emptied, it is interrupted again, by a duplicate too.
            let processed = ask(run, Request::Process { hardware_hart: last });
            assert_eq!((processed.number, processed.did.len(), &processed.values[..]), (0, 64, &[64][..]));
            assert_eq!([1, 1].map(|start| ask(run, to(1 << full, start))), [(); 2].map(|()| done(&[bit])));
            // It stopped itself, and still receives; at home it does not.
            assert_eq!(ask(run, Request::Stop { hardware_hart: last }), done(&[]));
            assert_eq!(ask(run, to(1 << full, 2)), done(&[bit]));
            assert_eq!(ask(run, Request::Status { hart: full }), done(&[0]));
            assert_eq!(ask(run, Request::Return { hardware_hart: last }), done(&[]));
            assert_eq!(ask(run, to(1 << full, 3)), done(&[0]));
            assert_eq!(ask(run, Request::Status { hart: full }), done(&[1]));
            assert_eq!(waiting(run, full), 2);
        }
    }
}

#[test]
fn the_1025th_region_is_refused() {
    for entry in ENTRIES {
        let run = &mut started(entry, 2, 1);
        // Multiples of 16 below 16 * 1,031, each once; the seven that would come last are 16 * 982 and above.
        for place in 0..MOST_REGIONS + 2 {
            let given = ask(run, Request::Add { base: 16 * (place * 7 % 1031), size: 8 });
            assert_eq!(given.number, if place < MOST_REGIONS { 0 } else { 9 });
        }
        // Full comes before overlapping, and after an end that is too large.
        assert_eq!(ask(run, Request::Add { base: 0, size: 8 }), Given::refused(9));
        assert_eq!(ask(run, Request::Add { base: MAX, size: 1 }), Given::refused(11));
        // What is removed, whether its first bytes were defined, how many regions are left, and the number of adding its first byte.
        let removes = [(4, 20, 1, 1022, 0), (16 * 500, 16 * 100, 1, 923, 0), (MAX, 0, 0, 924, 11), (0, MAX, 0, 0, 0)];
        for (base, size, defined, left, added) in removes {
            let first_bytes = Request::Defined { base, size: size.min(4) };
            assert_eq!(ask(run, first_bytes.clone()), done(&[defined]));
            assert_eq!(ask(run, Request::Remove { base, size }), done(&[]));
            assert_eq!(run.tables().head[3], left);
            assert_eq!(ask(run, first_bytes), done(&[0]));
            assert_eq!(ask(run, Request::Add { base, size: 1 }).number, added);
        }
        assert_eq!(run.tables().regions[..4], [0, 1, 0, 0]);
    }
}

#[test]
fn a_setup_is_refused_out_of_range_and_then_for_room() {
    for entry in ENTRIES {
        let out_of_range =
            [(0, 1, 0), (1, 0, 0), (1, 1, 1), (2, 2, 2), (1024, 64, 1024), (1025, 1, 0), (1, 65, 0), (MAX, 1, 0), (1, MAX, 0), (1, 1, MAX)];
        for (n, m, boot) in out_of_range {
            // 18 comes first: there is room for 1,024 and 64, or there is none.
            for words in [Tables::needed(1024, 64), [0; TABLES]] {
                let run = &mut Run::new(Tables::filled(words, || 7), entry);
                assert_eq!(ask(run, setup(n, m, boot)), Given::refused(18), "{n} {m} {boot}");
            }
        }
        for (n, m, boot) in [(1, 1, 0), (2, 3, 1), (1, 64, 0), (1024, 1, 0), (1024, 1, 1023), (1024, 64, 512)] {
            let lent = |words| Run::new(Tables::filled(words, || 7), entry);
            let needed = Tables::needed(n, m);
            let run = &mut lent(needed);
            assert_eq!(ask(run, setup(n, m, boot)), done(&[]), "{n} {m} {boot}");
            let [home, hardware] = [run.tables().home_row(boot), run.tables().hardware_row(m - 1)];
            assert_eq!(home, [1, boot as u64, 0, 0, 0, 0, boot as u64, 1, 2, 3, 549755815970, 4]);
            assert_eq!(hardware, [0, m as u64 - 1, 0, 0, 0, 0, 0, 0, 0, 0, 0, 0]);
            if n > 1 {
                let other = (boot + 1) % n;
                assert_eq!(run.tables().home_row(other), [1, other as u64, 1, 0, 0, 0, 0, 0, 0, 0, 549755815970, 0]);
            }
            // The same tables have no room for one more hart or hardware hart; past the most that is out of range.
            assert_eq!(ask(run, setup(n + 1, m, boot)).number, if n < 1024 { 13 } else { 18 });
            assert_eq!(ask(run, setup(n, m + 1, boot)).number, if m < 64 { 13 } else { 18 });
            for table in Table::ALL {
                let mut short = needed;
                short[table as usize] -= 1;
                assert_eq!(ask(&mut lent(short), setup(n, m, boot)), Given::refused(13), "{n} {m} {boot}, table {table}");
            }
        }
    }
}

#[test]
fn too_little_room_for_values_is_13_before_all_else_and_changes_nothing() {
    // The C functions alone: the package has room of its own. Hart 1 is held by hardware hart 0.
    let command = Command { kind: 1, mask: 7, base: 0, ..Command::default() };
    let of_tables = [
        Request::Steal { hart: 0, hardware_hart: 1 },
        Request::Status { hart: 0 },
        Request::Home,
        Request::Send { sender: 0, command },
        Request::Defined { base: 0, size: 1 },
        // These would be refused for another reason too.
        Request::Steal { hart: 3, hardware_hart: 2 },
        Request::Send { sender: 0, command: Command::default() },
        Request::Defined { base: MAX, size: 1 },
    ];
    let of_flow = [
        Request::Broadcast { hardware_hart: 0, command },
        Request::Process { hardware_hart: 0 },
        Request::Resume { hardware_hart: 0 },
        // And these.
        Request::Broadcast { hardware_hart: 2, command: Command::default() },
        Request::Process { hardware_hart: 2 },
        Request::Resume { hardware_hart: 1 },
    ];
    let requests = of_tables.map(|request| (VALUE_WORDS, request)).into_iter().chain(of_flow.map(|request| (REPLY_VALUE_WORDS, request)));
    let sound = holding(by_c, 3, 2, 1).tables().clone();
    let mut damaged = sound.clone();
    damaged.head[0] = 0;
    for (asked, request) in requests {
        for before in [&sound, &damaged] {
            for (value_words, effects_words) in (0..asked).flat_map(|words| EFFECTS_WORDS.map(|effects| (words, effects))) {
                let (mut tables, mut effects, mut value) = (before.clone(), [9; ROOM], [9; REPLY_VALUE_WORDS]);
                let number = by_c(&mut tables, &request, &mut effects[..effects_words], &mut value[..value_words]);
                assert_eq!((number, value), (13, [9; REPLY_VALUE_WORDS]), "{request:?} with {value_words} words for values");
                assert!(tables == *before && effects == [9; ROOM], "{request:?} with {value_words} words for values");
            }
        }
    }
    // With room, the words past the value stay.
    let (mut tables, mut value) = (sound, [9; VALUE_WORDS]);
    let number = by_c(&mut tables, &Request::Send { sender: 0, command }, &mut [], &mut value);
    assert_eq!((number, value), (0, [1, 9, 9, 9]));
}

#[test]
fn a_held_hart_changes_its_lifecycle_by_the_table() {
    let hardware_hart = 0;
    let (address, opaque) = (MAX, 9);
    let changes = [
        Request::Suspend { hardware_hart },
        Request::Stop { hardware_hart },
        Request::Wake { hardware_hart, address, opaque },
        Request::Off { hardware_hart },
    ];
    // The change that leads from Started to each lifecycle, and the number of each change and the lifecycle after it.
    let table = [
        (None, [(0, 2), (0, 1), (7, 0), (0, 3)]),
        (Some(1), [(5, 1), (6, 1), (7, 1), (0, 3)]),
        (Some(0), [(5, 2), (6, 2), (0, 0), (0, 3)]),
        (Some(3), [(5, 3), (6, 3), (7, 3), (0, 3)]),
    ];
    for (entry, (way, given)) in ENTRIES.into_iter().flat_map(|entry| table.map(|row| (entry, row))) {
        for (change, (number, after)) in changes.iter().zip(given) {
            let run = &mut holding(entry, 2, 2, 1);
            if let Some(at) = way {
                assert_eq!(ask(run, changes[at].clone()), done(&[]));
            }
            let mut expected = held(run).to_vec();
            assert_eq!(ask(run, change.clone()).number, number, "{change:?}");
            expected[2] = after;
            if matches!(change, Request::Wake { .. }) && number == 0 {
                [expected[7], expected[8]] = [opaque as u64, address as u64];
            }
            assert_eq!(held(run), expected, "{change:?}");
            // As a held hart it counts as Started. Commands are done in any lifecycle, and only a PoweredOff hart does not go on.
            assert_eq!(ask(run, Request::Status { hart: 1 }), done(&[0]));
            let command = Command { kind: 1, mask: 2, base: 0, ..Command::default() };
            let did = vec![record(1, command)];
            assert_eq!(ask(run, Request::Send { sender: 0, command }), done(&[1]));
            let resumed = Given { number: 0, did: did.clone(), values: vec![(after == 3) as u64] };
            assert_eq!(ask(run, Request::Resume { hardware_hart }), resumed);
            assert_eq!(ask(run, Request::Broadcast { hardware_hart, command }), Given { number: 0, did, values: vec![0] });
            assert_eq!(ask(run, Request::Return { hardware_hart }), done(&[]));
            assert_eq!(ask(run, Request::Status { hart: 1 }), done(&[after]));
        }
    }
}

#[test]
fn what_a_sender_did_stands_where_8_follows() {
    for (entry, (n, m)) in ENTRIES.into_iter().flat_map(|entry| [(entry, (4, 2)), (entry, (65, 64))]) {
        let run = &mut holding(entry, n, m, 0);
        let fence = |mask, start| Command { kind: 3, mask, base: 0, start, size: 1, tag: 0 };
        for start in 0..64 {
            assert_eq!(ask(run, Request::Send { sender: 0, command: fence(1 << 2, start) }), done(&[0]));
        }
        // What a broadcast gives, how many commands then wait for harts 1, 2 and 3, and the sender's lifecycle.
        let mut broadcast = |command| {
            let given = ask(run, Request::Broadcast { hardware_hart: 0, command });
            (given.number, given.did, given.values, [1, 2, 3].map(|h| waiting(run, h)), held(run)[2])
        };
        let did = |command| vec![record(0, command)];
        // The sender is selected, or it is not. Hart 1 keeps what it got, and hart 3 gets nothing.
        assert_eq!(broadcast(fence(15, 100)), (8, did(fence(15, 100)), vec![], [1, 64, 0], 0));
        assert_eq!(broadcast(fence(14, 100)), (8, vec![], vec![], [2, 64, 0], 0));
        // A command that waits is refused too where the queue is full.
        assert_eq!(broadcast(fence(4, 7)), (8, vec![], vec![], [2, 64, 0], 0));
        // Kind 6 selects all, and powers its sender off.
        assert_eq!(broadcast(SHUTDOWN), (8, did(SHUTDOWN), vec![], [3, 64, 0], 3));
        // A sender that is powered off sends, and hart 3 is below none that refuses.
        assert_eq!(broadcast(fence(9, 5)), (0, did(fence(9, 5)), vec![0], [3, 64, 1], 3));
    }
}

#[test]
fn every_command_that_waits_is_done_once_and_in_order() {
    for (entry, count) in ENTRIES.into_iter().flat_map(|entry| [0_usize, 1, 2, 63, 64].map(|count| (entry, count))) {
        for shutdown in [None, Some(0), Some(count / 2), count.checked_sub(1)] {
            for resume in [false, true] {
                let run = &mut holding(entry, 3, 2, 1);
                let fence = |start| Command { kind: 4, mask: 2, base: 0, start, size: MAX, tag: 7 };
                let commands = (0..count).map(|at| if shutdown == Some(at) { SHUTDOWN } else { fence(at) });
                let did: Vec<_> = commands.clone().map(|command| record(1, command)).collect();
                for command in commands {
                    assert_eq!(ask(run, Request::Send { sender: 0, command }), done(&[1]));
                }
                assert_eq!(ask(run, Request::Await { hardware_hart: 0, kind: 5, x: 8, y: MAX }), done(&[]));
                // A hart that was powered off keeps its operation, and another's is taken by resume alone.
                let off = shutdown.is_some() && count != 0;
                let (values, operation) = match (resume, off) {
                    (false, _) => (vec![count as u64], [5, 8, u64::MAX]),
                    (true, true) => (vec![1], [5, 8, u64::MAX]),
                    (true, false) => (vec![2, 5, 8, u64::MAX], [0; 3]),
                };
                let request = if resume { Request::Resume { hardware_hart: 0 } } else { Request::Process { hardware_hart: 0 } };
                assert_eq!(ask(run, request.clone()), Given { number: 0, did, values });
                assert_eq!(held(run)[2..6], [&[3 * off as u64], &operation[..]].concat());
                assert!(run.tables().queue(1).iter().all(|&word| word == 0));
                // Once more: nothing waits.
                assert_eq!(ask(run, request), done(&[(resume && off) as u64]));
            }
        }
    }
}

#[test]
fn a_second_operation_is_refused_until_the_first_is_over() {
    for (entry, kind) in ENTRIES.into_iter().flat_map(|entry| (1..6).map(move |kind| (entry, kind))) {
        let run = &mut holding(entry, 2, 2, 1);
        let wait = |hardware_hart, kind, x| Request::Await { hardware_hart, kind, x, y: MAX };
        assert_eq!(ask(run, wait(0, kind, 8)), done(&[]));
        assert_eq!(ask(run, wait(0, 6 - kind, 9)), Given::refused(17));
        assert_eq!(held(run)[3..6], [kind as u64, 8, u64::MAX]);
        // It goes home and to another hardware hart with its hart.
        assert_eq!(ask(run, Request::Return { hardware_hart: 0 }), done(&[]));
        assert_eq!(run.tables().home_row(1)[3..6], [kind as u64, 8, u64::MAX]);
        assert_eq!(ask(run, Request::Steal { hart: 1, hardware_hart: 1 }), done(&[0]));
        assert_eq!(run.tables().hardware_row(1)[3..6], [kind as u64, 8, u64::MAX]);
        let resume = Request::Resume { hardware_hart: 1 };
        assert_eq!(ask(run, resume.clone()), done(&[2, kind as u64, 8, u64::MAX]));
        assert_eq!(ask(run, resume), done(&[0]));
        assert_eq!(ask(run, wait(1, kind, 0)), done(&[]));
    }
}

#[test]
fn checks_go_in_document_01s_order() {
    let steal = |hart, hardware_hart| (Request::Steal { hart, hardware_hart }, 0);
    let start = |hart| (Request::Start { hart, address: 1, opaque: 2 }, 0);
    let add = |base, size| (Request::Add { base, size }, 0);
    let wait = |hardware_hart, kind| (Request::Await { hardware_hart, kind, x: 0, y: 0 }, 0);
    let send = |hardware_hart, kind, tag, words| {
        (Request::Broadcast { hardware_hart, command: Command { kind, mask: 7, tag, ..Command::default() } }, words)
    };
    let process = |hardware_hart, words| (Request::Process { hardware_hart }, words);
    let resume = |hardware_hart, words| (Request::Resume { hardware_hart }, words);
    // Requests with the words that are lent for effects, and the number. Hart 1 is held by hardware hart 0 and waits for an operation, hardware
    // hart 1 is idle and there is no 2. Hart 2 is stopped.
    let cases = [
        (steal(3, 2), 14),
        (steal(3, 0), 15),
        (steal(1, 0), 15),
        (steal(2, 0), 15),
        (steal(3, 1), 1),
        (steal(1, 1), 2),
        (steal(2, 1), 3),
        (start(3), 1),
        (start(1), 2),
        (start(0), 4),
        (add(MAX, 1), 11),
        (send(2, 0, 0, 0), 13),
        (send(0, 1, 0, 6), 13),
        (send(2, 0, 0, 7), 19),
        (send(2, 7, 0, 7), 19),
        (send(1, 1, 1, 7), 19),
        (send(2, 1, 0, 7), 14),
        (send(MAX, 6, 0, 7), 19),
        (send(1, 1, 0, 7), 16),
        (send(0, 1, 0, 7), 0),
        (process(2, 447), 13),
        (process(0, 7), 13),
        (process(2, 448), 14),
        (process(1, 448), 16),
        (process(0, 448), 0),
        (resume(2, 447), 13),
        (resume(0, 0), 13),
        (resume(2, 448), 14),
        (resume(1, 448), 16),
        (wait(2, 0), 19),
        (wait(1, 6), 19),
        (wait(0, 6), 19),
        (wait(2, 1), 14),
        (wait(MAX, 1), 14),
        (wait(1, 1), 16),
        (wait(0, 1), 17),
        (resume(0, 448), 0),
        (wait(0, 5), 0),
    ];
    for entry in ENTRIES {
        let run = &mut fresh(entry, 3, 2);
        assert_eq!(ask(run, setup(3, 2, 1)), done(&[]));
        assert_eq!(ask(run, Request::Start { hart: 0, address: 5, opaque: 6 }), done(&[]));
        assert_eq!(ask(run, Request::Steal { hart: 1, hardware_hart: 0 }), done(&[0]));
        assert_eq!(ask(run, wait(0, 1).0), done(&[]));
        for ((request, effects_words), number) in cases.clone() {
            let given = ask_with(run, request.clone(), effects_words);
            assert_eq!(given.number, number, "{request:?} with {effects_words} words for effects");
        }
        // Where the tables are not sound 12 comes before all of these.
        assert_eq!(take(run, Step::Replace { table: Table::Head, place: 0, words: vec![0] }), None);
        for ((request, effects_words), _) in cases.clone() {
            assert_eq!(ask_with(run, request, effects_words), Given::refused(12));
        }
    }
}
