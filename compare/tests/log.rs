//! The rows worked out from the log: by hand on document 01's P1 and on the errors that it lists, and logs with one fault each, in which the row
//! that the fault shows in was worked out by hand.
use compare::QUEUE_WORDS;
use compare::draw::{MAX, noise};
use compare::entries::{Entry, by_c};
use compare::log::{Log, Note, POWERED_OFF, STARTED, STOPPED, SUSPENDED};
use compare::pair::{MOST_VALUE_WORDS, ROOM};
use compare::runs::log::sequence;
use compare::tables::Tables;
use oracle::driver::{Command, Random, Request};

const SHUTDOWN: Command = Command { kind: 6, mask: 0, base: 0, start: 0, size: 0, tag: 0 };
/// An mstatus after setup, and after start.
const SET_UP: u64 = 549755815970;
const STARTED_ANEW: u64 = 549755815938;

/// The request of a line whose fields are parted by spaces.
fn request(line: &str) -> Request {
    Request::parse(line.replace(' ', "\t").as_bytes()).unwrap_or_else(|| panic!("{line} is a request"))
}

/// Requests with the numbers that they were answered with.
type Answered = Vec<(Request, u64)>;

/// The log that answered requests leave.
fn log(answered: &[(Request, u64)]) -> Log {
    let mut log = None;
    answered.iter().for_each(|(request, number)| Log::note(&mut log, request, *number));
    log.expect("a setup was accepted")
}

/// Lines and their numbers.
fn lines(lines: &[(&str, u64)]) -> Answered {
    lines.iter().map(|(line, number)| (request(line), *number)).collect()
}

/// What an entry alone answers to requests on tables of n harts and m hardware harts, and the tables that it leaves.
fn asked(entry: Entry, (n, m): (usize, usize), requests: impl IntoIterator<Item = Request>) -> (Answered, Tables) {
    let mut tables = noise(&mut Random::new(1), n, m);
    let answer = |request: Request| {
        let number = entry(&mut tables, &request, &mut [0; ROOM], &mut [0; MOST_VALUE_WORDS]);
        (request, number)
    };
    (requests.into_iter().map(answer).collect(), tables)
}

/// The same for lines, whose numbers were worked out by hand. The rows worked out from the log must be those of the tables.
fn agreed(size: (usize, usize), by_hand: &[(&str, u64)]) -> (Log, Tables) {
    let (answered, tables) = asked(by_c, size, by_hand.iter().map(|(line, _)| request(line)));
    assert_eq!(answered, lines(by_hand));
    let log = log(&answered);
    assert_eq!(log.difference(&tables), None);
    (log, tables)
}

/// A fence that harts of a mask do.
fn fence(mask: usize, start: usize) -> Command {
    Command { kind: 3, mask, base: 0, start, size: 1, tag: 0 }
}

fn send(mask: usize, start: usize) -> Request {
    Request::Send { sender: MAX, command: fence(mask, start) }
}

/// Document 01's run P1.
const P1: [(&str, u64); 10] = [
    ("setup 2 2 0 4096 8192 0 0", 0),
    ("steal 0 0", 0),
    ("steal 0 1", 2),
    ("steal 1 1", 3),
    ("start 1 64 7", 0),
    ("broadcast 0 1 3 0 0 0 0", 0),
    ("steal 1 1", 0),
    ("broadcast 0 1 3 0 0 0 0", 0),
    ("resume 1", 0),
    ("return 0", 0),
];

#[test]
fn the_rows_of_p1() {
    let boot = [1, 0, 0, 0, 0, 0, 0, 4096, 8192, 0, SET_UP, 0];
    let started = [1, 1, 0, 0, 0, 0, 1, 7, 64, 0, STARTED_ANEW, 0];
    let dummies = [0, 1].map(|k| [0, k, 0, 0, 0, 0, 0, 0, 0, 0, 0, 0]);
    let ipi = Command { kind: 1, mask: 3, ..Command::default() };
    // The log is document 01's text alone. Both harts run, and the command waits once for hart 1.
    let before = log(&lines(&P1[..8]));
    assert_eq!([0, 1].map(|h| before.place(h)), [Some(0), Some(1)]);
    assert_eq!([0, 1].map(|h| before.home_row(h)), dummies);
    assert_eq!([0, 1].map(|k| before.hardware_row(k)), [boot, started]);
    assert_eq!([0, 1].map(|h| before.queue(h)), [vec![], vec![ipi]]);
    assert_eq!(before.queue_row(1)[..8], [1, 1, 3, 0, 0, 0, 0, 0]);
    assert_eq!((before.queue_row(1).len(), before.head()), (QUEUE_WORDS, [2, 2, 0, 0]));
    // Then hart 1 has done it, and hart 0 is at home.
    let end = log(&lines(&P1));
    assert_eq!([0, 1].map(|h| end.place(h)), [None, Some(1)]);
    assert_eq!([0, 1].map(|h| end.home_row(h)), [boot, dummies[1]]);
    assert_eq!([0, 1].map(|k| end.hardware_row(k)), [dummies[0], started]);
    assert_eq!([0, 1].map(|h| end.queue_row(h)), [(); 2].map(|()| vec![0; QUEUE_WORDS]));
    assert_eq!((end.head(), end.regions()), ([2, 2, 0, 0], vec![]));
    for count in 1..=P1.len() {
        agreed((2, 2), &P1[..count]);
    }
}

#[test]
fn a_steal_onto_a_busy_hardware_hart_leaves_no_row() {
    let steals = [("setup 2 1 0 1 2 3 4", 0), ("start 1 5 6", 0), ("steal 0 0", 0), ("steal 1 0", 15)];
    let (log, _) = agreed((2, 1), &steals);
    assert_eq!([0, 1].map(|h| log.place(h)), [Some(0), None]);
    // Where it exchanges the rows, home row 1 comes to hold hart 0.
    fn takes_a_busy_one(tables: &mut Tables, request: &Request, effects: &mut [u64], value: &mut [u64]) -> u64 {
        match (by_c(tables, request, effects, value), request) {
            (15, &Request::Steal { hart, hardware_hart }) => {
                let (home, hardware) = (12 * hart..12 * hart + 12, 12 * hardware_hart..12 * hardware_hart + 12);
                tables.home[home].swap_with_slice(&mut tables.hardware[hardware]);
                0
            }
            (number, _) => number,
        }
    }
    let (answered, tables) = asked(takes_a_busy_one, (2, 1), steals.map(|(line, _)| request(line)));
    assert_eq!(self::log(&answered).difference(&tables).as_deref(), Some("word 0 of home row 1 is 1 in ours and should be 0 by the log"));
}

#[test]
fn a_full_queue_refuses_a_duplicate() {
    // Hart 1 is full, and the seventh command is sent to harts 1 and 2 again.
    let filled = [request("setup 3 1 0 1 2 3 4"), request("start 1 5 6"), request("start 2 5 6")].into_iter();
    let filled = filled.chain((0..64).map(|start| send(6, start))).chain([request("steal 2 0"), request("process 0"), send(6, 7)]);
    let (answered, tables) = asked(by_c, (3, 1), filled.clone());
    assert_eq!(answered[answered.len() - 1].1, 8);
    let log = log(&answered);
    assert_eq!(log.difference(&tables), None);
    assert_eq!(log.queue(1), (0..64).map(|start| fence(6, start)).collect::<Vec<_>>());
    assert_eq!(log.queue(2), []);
    // Where the test for a duplicate comes first, hart 2 gets the command and the answer is 0.
    fn tests_for_a_duplicate_first(tables: &mut Tables, request: &Request, effects: &mut [u64], value: &mut [u64]) -> u64 {
        match (by_c(tables, request, effects, value), request) {
            (8, &Request::Send { sender, command }) => {
                let above = Command { mask: 4, ..command };
                assert_eq!(by_c(tables, &Request::Send { sender, command: above }, effects, value), 0);
                tables.queues[2 * QUEUE_WORDS + 2] = command.mask as u64;
                0
            }
            (number, _) => number,
        }
    }
    let (answered, tables) = asked(tests_for_a_duplicate_first, (3, 1), filled);
    assert_eq!(answered[answered.len() - 1].1, 0);
    let complaint = format!("by the log send {MAX} 3 6 0 7 1 0 cannot be answered 0");
    assert_eq!(self::log(&answered).difference(&tables), Some(complaint));
}

#[test]
fn a_stolen_hart_that_stopped_itself_receives() {
    let sent = [
        ("setup 2 1 0 1 2 3 4", 0),
        ("steal 0 0", 0),
        ("stop 0", 0),
        ("send 1 1 1 0 0 0 0", 0),
        ("return 0", 0),
        ("send 1 2 1 0 0 0 0", 0),
    ];
    let (log, mut tables) = agreed((2, 1), &sent);
    // At home it does not.
    assert_eq!((log.place(0), log.lifecycle(0)), (None, STOPPED));
    assert_eq!(log.queue(0), [Command { kind: 1, mask: 1, ..Command::default() }]);
    // Where it is passed over nothing waits.
    tables.queues[..QUEUE_WORDS].fill(0);
    assert_eq!(log.difference(&tables).as_deref(), Some("word 0 of queue 0 is 0 in ours and should be 1 by the log"));
}

#[test]
fn a_broadcast_refused_with_8_is_delivered_below_the_refusing_hart() {
    // Hart 2 alone is full. Harts 1, 2 and 3 are Started; hart 0 sends, which is selected or not.
    let filled = [request("setup 4 1 0 1 2 3 4"), request("start 1 5 6"), request("start 2 5 6"), request("start 3 5 6")].into_iter();
    let filled: Vec<_> = filled.chain((0..64).map(|start| send(4, start))).chain([request("steal 0 0")]).collect();
    let last = |request: Request| {
        let (answered, tables) = asked(by_c, (4, 1), filled.iter().cloned().chain([request]));
        assert_eq!(answered[answered.len() - 1].1, 8);
        let log = log(&answered);
        assert_eq!(log.difference(&tables), None);
        assert_eq!((log.queue(2).len(), log.queue(3), log.queue(0)), (64, vec![], vec![]));
        (log.queue(1), log.lifecycle(0))
    };
    assert_eq!(last(Request::Send { sender: 0, command: fence(15, 9) }), (vec![fence(15, 9)], STARTED));
    assert_eq!(last(Request::Broadcast { hardware_hart: 0, command: fence(14, 9) }), (vec![fence(14, 9)], STARTED));
    // A command that waits in the full queue is refused too, and kind 6 powers its sender off.
    assert_eq!(last(Request::Broadcast { hardware_hart: 0, command: fence(4, 9) }), (vec![], STARTED));
    assert_eq!(last(Request::Broadcast { hardware_hart: 0, command: SHUTDOWN }), (vec![SHUTDOWN], POWERED_OFF));
    // At table level nobody does it.
    assert_eq!(last(Request::Send { sender: 0, command: SHUTDOWN }), (vec![SHUTDOWN], STARTED));
}

#[test]
fn an_accepted_setup_starts_the_log_anew() {
    let first = [
        ("setup 2 2 0 1 2 3 4", 0),
        ("start 1 64 7", 0),
        ("steal 0 1", 0),
        ("await 1 3 8 9", 0),
        ("send 0 1 2 0 0 0 0", 0),
        ("allow 5", 0),
        ("add 4096 4096", 0),
        // Refused: there is no such boot hart, and no room.
        ("setup 2 2 2 0 0 0 0", 18),
        ("setup 1024 64 0 0 0 0 0", 13),
    ];
    let (log, _) = agreed((2, 2), &first);
    assert_eq!((log.length(), log.head(), log.place(0), log.queue(1).len()), (8, [2, 2, 5, 1], Some(1), 1));
    let second = [&first[..], &[("setup 2 1 1 11 12 13 14", 0)]].concat();
    let (log, _) = agreed((2, 2), &second);
    assert_eq!((log.length(), log.head()), (0, [2, 1, 0, 0]));
    let rows = [[1, 0, 1, 0, 0, 0, 0, 0, 0, 0, SET_UP, 0], [1, 1, 0, 0, 0, 0, 1, 11, 12, 13, SET_UP, 14]];
    assert_eq!([0, 1].map(|h| log.home_row(h)), rows);
    assert_eq!([0, 1].map(|h| log.queue(h)), [vec![], vec![]]);
    // What comes after it counts from there.
    let third = [&second[..], &[("allow 2", 0), ("start 0 3 4", 0), ("steal 0 0", 0)]].concat();
    let (log, _) = agreed((2, 2), &third);
    assert_eq!((log.length(), log.head(), log.place(0)), (3, [2, 1, 2, 0], Some(0)));
}

#[test]
fn what_is_done_powers_off_and_what_is_off_keeps_its_operation() {
    // A shutdown waits with an operation. Resume does it first, and then leaves the operation; process alone takes none.
    let waiting = [("setup 2 1 0 1 2 3 4", 0), ("steal 0 0", 0), ("await 0 3 8 9", 0), ("send 1 6 0 0 0 0 0", 0)];
    let after = |more: &[(&str, u64)]| {
        let (log, _) = agreed((2, 1), &[&waiting, more].concat());
        (log.lifecycle(0), log.operation(0), log.queue(0).len())
    };
    assert_eq!(after(&[]), (STARTED, [3, 8, 9], 1));
    assert_eq!(after(&[("process 0", 0)]), (POWERED_OFF, [3, 8, 9], 0));
    assert_eq!(after(&[("resume 0", 0)]), (POWERED_OFF, [3, 8, 9], 0));
    assert_eq!(after(&[("resume 0", 0), ("return 0", 0), ("start 0 1 2", 4)]), (POWERED_OFF, [3, 8, 9], 0));
    // Without the shutdown it is taken, once, whatever the lifecycle; and it stays with a hart that stops and is started again.
    let waiting = [("setup 2 1 0 1 2 3 4", 0), ("steal 0 0", 0), ("await 0 3 8 9", 0), ("await 0 4 1 1", 17)];
    let after = |more: &[(&str, u64)]| {
        let (log, _) = agreed((2, 1), &[&waiting, more].concat());
        (log.lifecycle(0), log.operation(0), log.registers(0)[..2].to_vec())
    };
    assert_eq!(after(&[("suspend 0", 0), ("resume 0", 0)]), (SUSPENDED, [0; 3], vec![0, 1]));
    assert_eq!(after(&[("stop 0", 0), ("return 0", 0), ("start 0 1 2", 0)]), (STARTED, [3, 8, 9], vec![0, 2]));
    assert_eq!(after(&[("resume 0", 0), ("await 0 4 0 7", 0), ("resume 0", 0), ("await 0 5 7 0", 0)]), (STARTED, [5, 7, 0], vec![0, 1]));
}

/// A run with every kind of request that changes a row. At its end hart 0 is on hardware hart 0, Stopped; hart 1 is at home, Suspended and waits
/// for an operation; hart 2 is at home and PoweredOff. Two commands wait for hart 0 and two for hart 1. Two regions stand.
const MIXED: [(&str, u64); 26] = [
    ("setup 3 2 0 10 11 12 7", 0),
    ("start 1 64 7", 0),
    ("start 2 65 8", 0),
    ("allow 5", 0),
    ("allow 2", 0),
    ("add 4096 4096", 0),
    ("add 16384 16", 0),
    ("remove 5000 1", 0),
    ("add 4096 0", 0),
    ("steal 0 0", 0),
    ("steal 1 1", 0),
    ("send 9 3 7 0 1 1 0", 0),
    ("process 0", 0),
    ("broadcast 1 3 7 0 2 1 0", 0),
    ("suspend 0", 0),
    ("wake 0 96 9", 0),
    ("await 1 3 8 9", 0),
    ("suspend 1", 0),
    ("return 1", 0),
    ("steal 2 1", 0),
    ("off 1", 0),
    ("resume 1", 0),
    ("return 1", 0),
    ("stop 0", 0),
    ("steal 0 1", 2),
    ("send 9 3 7 0 3 1 0", 0),
];

/// Where a request stands in the run.
fn at(line: &str) -> usize {
    MIXED.iter().position(|(request, _)| *request == line).expect("it is in the run")
}

/// What the log of the run, changed by one fault, complains of.
fn complaint(fault: impl FnOnce(&mut Answered)) -> String {
    let (_, tables) = agreed((3, 2), &MIXED);
    let mut answered = lines(&MIXED);
    fault(&mut answered);
    log(&answered).difference(&tables).unwrap_or_else(|| "none".to_string())
}

#[test]
fn a_request_left_out_of_the_log_shows_in_its_row() {
    let (_, tables) = agreed((3, 2), &MIXED);
    assert_eq!((&tables.head[..4], &tables.regions[..5]), (&[3, 2, 7, 2][..], &[16384, 16400, 4096, 4096, 0][..]));
    let left_out = [
        // Hart 1 is Suspended and hart 2 PoweredOff by later requests: a0 shows that they were not started.
        ("start 1 64 7", "word 6 of home row 1 is 1 in ours and should be 0"),
        ("start 2 65 8", "word 6 of home row 2 is 2 in ours and should be 0"),
        ("allow 5", "word 2 of head is 7 in ours and should be 2"),
        ("allow 2", "word 2 of head is 7 in ours and should be 5"),
        ("add 16384 16", "word 3 of head is 2 in ours and should be 1"),
        ("remove 5000 1", "word 3 of head is 2 in ours and should be 3"),
        ("add 4096 0", "word 3 of head is 2 in ours and should be 1"),
        ("steal 0 0", "word 0 of home row 0 is 0 in ours and should be 1"),
        // What hart 1 did on hardware hart 1 nobody did.
        ("steal 1 1", "word 2 of home row 1 is 2 in ours and should be 0"),
        ("send 9 3 7 0 1 1 0", "word 0 of queue 1 is 2 in ours and should be 1"),
        ("process 0", "word 0 of queue 0 is 2 in ours and should be 3"),
        ("broadcast 1 3 7 0 2 1 0", "word 0 of queue 0 is 2 in ours and should be 1"),
        ("wake 0 96 9", "word 7 of hardware row 0 is 9 in ours and should be 10"),
        ("await 1 3 8 9", "word 3 of home row 1 is 3 in ours and should be 0"),
        ("suspend 1", "word 2 of home row 1 is 2 in ours and should be 0"),
        // Hart 1 stays on hardware hart 1 up to the next return, and is powered off there.
        ("return 1", "word 2 of home row 1 is 2 in ours and should be 3"),
        ("steal 2 1", "word 2 of home row 2 is 3 in ours and should be 0"),
        ("off 1", "word 2 of home row 2 is 3 in ours and should be 0"),
        ("resume 1", "word 0 of queue 2 is 0 in ours and should be 2"),
        ("stop 0", "word 2 of hardware row 0 is 1 in ours and should be 0"),
        ("send 9 3 7 0 3 1 0", "word 0 of queue 0 is 2 in ours and should be 1"),
    ];
    for (line, expected) in left_out {
        let found = complaint(|answered| drop(answered.remove(at(line))));
        assert_eq!(found, format!("{expected} by the log"), "without {line}");
    }
}

#[test]
fn a_request_that_was_not_or_was_another_shows_in_its_row() {
    let last = MIXED.len();
    let more = |line: &'static str| move |answered: &mut Answered| answered.push((request(line), 0));
    let other = |old: &'static str, new: &'static str| move |answered: &mut Answered| answered[at(old)].0 = request(new);
    let number = |line: &'static str, number: u64| move |answered: &mut Answered| answered[at(line)].1 = number;
    let changed = [
        (complaint(|_| {}), "none"),
        (complaint(more("return 0")), "word 0 of home row 0 is 0 in ours and should be 1 by the log"),
        (complaint(more("process 0")), "word 0 of queue 0 is 2 in ours and should be 0 by the log"),
        // Nobody is on hardware hart 1.
        (complaint(more("process 1")), "none"),
        (complaint(more("off 0")), "word 2 of hardware row 0 is 1 in ours and should be 3 by the log"),
        (complaint(more("allow 8")), "word 2 of head is 7 in ours and should be 15 by the log"),
        // [4096, 4096) overlaps no [4096, 4096), and is overlapped by what goes around it.
        (complaint(more("remove 4096 0")), "none"),
        (complaint(more("remove 4095 2")), "word 3 of head is 2 in ours and should be 1 by the log"),
        (complaint(other("add 16384 16", "add 16384 17")), "word 1 of regions is 16400 in ours and should be 16401 by the log"),
        // Hardware hart 1 has returned its hart since.
        (complaint(other("steal 0 0", "steal 0 1")), "word 0 of home row 0 is 0 in ours and should be 1 by the log"),
        (complaint(|answered| drop(answered.remove(at("resume 1") + 1))), "word 0 of home row 2 is 1 in ours and should be 0 by the log"),
        (complaint(other("start 2 65 8", "start 2 66 8")), "word 8 of home row 2 is 65 in ours and should be 66 by the log"),
        (complaint(other("await 1 3 8 9", "await 1 3 8 0")), "word 5 of home row 1 is 9 in ours and should be 0 by the log"),
        // The boot hart is another: hart 0 is then not started, but stopped in the end, and vsstatus was set up for hart 1.
        (complaint(other(MIXED[0].0, "setup 3 2 1 10 11 12 7")), "word 11 of home row 1 is 0 in ours and should be 5 by the log"),
        // Hart 0 gets a shutdown, or what was sent to hart 1 alone.
        (complaint(other("send 9 3 7 0 3 1 0", "send 9 6 0 0 0 0 0")), "word 7 of queue 0 is 3 in ours and should be 6 by the log"),
        (complaint(other("send 9 3 7 0 3 1 0", "send 0 3 7 0 3 1 0")), "word 0 of queue 0 is 2 in ours and should be 1 by the log"),
        // Hart 1 does the shutdown and is Suspended after it; for hart 0 it waits.
        (
            complaint(other("broadcast 1 3 7 0 2 1 0", "broadcast 1 6 0 0 0 0 0")),
            "word 1 of queue 0 is 3 in ours and should be 6 by the log",
        ),
        // The steal that was refused, and the last send refused with 8 by nobody.
        (complaint(number("steal 0 1", 0)), "word 1 of home row 0 is 0 in ours and should be 1 by the log"),
        (complaint(number("send 9 3 7 0 3 1 0", 8)), "word 0 of queue 0 is 2 in ours and should be 1 by the log"),
        (complaint(number("steal 0 1", 12)), "by the log steal 0 1 cannot be answered 12"),
        (complaint(|answered| answered.push((request("send 9 1 4 0 0 0 0"), 8))), "by the log send 9 1 4 0 0 0 0 cannot be answered 8"),
        // In another order: a region is added after the remove, regions are added and commands are sent the other way round.
        (
            complaint(|answered| answered.swap(at("add 4096 4096"), at("remove 5000 1"))),
            "word 3 of head is 2 in ours and should be 3 by the log",
        ),
        (
            complaint(|answered| answered.swap(at("add 16384 16"), at("add 4096 0"))),
            "word 0 of regions is 16384 in ours and should be 4096 by the log",
        ),
        (
            complaint(|answered| answered.swap(at("broadcast 1 3 7 0 2 1 0"), last - 1)),
            "word 4 of queue 0 is 2 in ours and should be 3 by the log",
        ),
    ];
    for (place, (found, expected)) in changed.iter().enumerate() {
        assert_eq!(found, expected, "change {place}");
    }
}

/// Who notes has a fault: some requests are left out, or noted as others.
fn without(log: &mut Option<Log>, request: &Request, number: u64, is_left_out: bool) {
    if !is_left_out {
        Log::note(log, request, number);
    }
}

fn returns_are_left_out(log: &mut Option<Log>, request: &Request, number: u64) {
    without(log, request, number, matches!(request, Request::Return { .. }));
}

fn starts_are_left_out(log: &mut Option<Log>, request: &Request, number: u64) {
    without(log, request, number, matches!(request, Request::Start { .. }));
}

fn removes_are_left_out(log: &mut Option<Log>, request: &Request, number: u64) {
    without(log, request, number, matches!(request, Request::Remove { .. }));
}

fn allows_are_left_out(log: &mut Option<Log>, request: &Request, number: u64) {
    without(log, request, number, matches!(request, Request::Allow { .. }));
}

fn processes_are_left_out(log: &mut Option<Log>, request: &Request, number: u64) {
    without(log, request, number, matches!(request, Request::Process { .. }));
}

/// A resume empties the queue, and takes no operation.
fn a_resume_is_a_process(log: &mut Option<Log>, request: &Request, number: u64) {
    match *request {
        Request::Resume { hardware_hart } => Log::note(log, &Request::Process { hardware_hart }, number),
        _ => Log::note(log, request, number),
    }
}

/// A broadcast of the flow is one at table level that no hart sends: its sender gets it, and does nothing.
fn a_broadcast_is_a_send(log: &mut Option<Log>, request: &Request, number: u64) {
    match *request {
        Request::Broadcast { command, .. } => Log::note(log, &Request::Send { sender: MAX, command }, number),
        _ => Log::note(log, request, number),
    }
}

/// A steal that is refused counts as done.
fn a_refused_steal_is_done(log: &mut Option<Log>, request: &Request, number: u64) {
    Log::note(log, request, if matches!(request, Request::Steal { .. }) && number == 2 { 0 } else { number });
}

/// A second setup leaves the log as it was.
fn a_second_setup_is_left_out(log: &mut Option<Log>, request: &Request, number: u64) {
    let is_second = log.is_some() && matches!(request, Request::Setup { .. });
    without(log, request, number, is_second);
}

#[test]
fn a_log_with_a_fault_is_told_with_the_shortest_sequence() {
    let faults: [(Note, (usize, usize), usize, &str, &str); 9] = [
        // Setup, steal, return.
        (returns_are_left_out, (1, 1), 3, "return 0", "word 0 of home row 0 is 1 in ours and should be 0"),
        // Setup, start.
        (starts_are_left_out, (2, 1), 2, "start ", "is 0 in ours and should be 1"),
        // Setup, add, and a remove that drops the region.
        (removes_are_left_out, (2, 1), 3, "remove ", "word 3 of head is 0 in ours and should be 1"),
        // Setup, allow.
        (allows_are_left_out, (2, 1), 2, "allow ", "word 2 of head is"),
        // Setup, steal, a send to the one hart, and process.
        (processes_are_left_out, (1, 1), 4, "process 0", "word 0 of queue 0 is 0 in ours and should be 1"),
        // Setup, steal, await, resume.
        (a_resume_is_a_process, (1, 1), 4, "resume 0", "word 3 of hardware row 0 is 0 in ours and should be"),
        // Setup, steal, and a broadcast that selects its sender. A shutdown shows in the sender's row.
        (a_broadcast_is_a_send, (1, 1), 3, "broadcast 0 ", "in ours and should be"),
        // Setup, steal, and a steal of the same hart onto the other hardware hart.
        (a_refused_steal_is_done, (1, 2), 3, "steal 0 ", "word 1 of home row 0 is"),
        // Two setups with other numbers.
        (a_second_setup_is_left_out, (1, 1), 2, "setup 1 1 0", "of home row 0 is"),
    ];
    for (place, (note, size, shortest, last, complaint)) in faults.into_iter().enumerate() {
        for seed in [0, 1, 2] {
            let Err(found) = sequence(seed, size, 2000, note, 1) else { panic!("fault {place} does not show with seed {seed}") };
            let text = found.to_string();
            let lines: Vec<_> = text.lines().collect();
            let [_, .., at_last, told] = lines[..] else { panic!("fault {place}, seed {seed}: {found}") };
            assert_eq!(found.steps.len(), shortest, "fault {place}, seed {seed}: {found}");
            assert!(
                at_last.contains(last) && told.contains(complaint) && told.ends_with(" by the log"),
                "fault {place}, seed {seed}: {found}"
            );
        }
    }
}

#[test]
fn without_a_fault_the_same_sequences_show_none() {
    for (seed, size) in [0, 1, 2].into_iter().flat_map(|seed| [(1, 1), (1, 2), (2, 1)].map(|size| (seed, size))) {
        let run = sequence(seed, size, 2000, Log::note, 1).unwrap_or_else(|found| panic!("{found}"));
        assert!(run.seen().total() >= 2001);
    }
}
