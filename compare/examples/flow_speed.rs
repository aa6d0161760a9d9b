//! Times the entries that do commands beside plain Rust, and prints the ratios. Process and resume run beside the same work on the same words;
//! the flow's broadcast beside a plain judge, the sender's own doing and then the original Rust's broadcast.
use compare::tables::Tables;
use compare::timing::{ratio, ratio_on};
use compare::{EFFECT_WORDS, HART_WORDS, QUEUE_WORDS};
use oracle::core::control_data::HardwareHart;
use oudrameng::{ConfidentialHartId, ConfidentialHartRemoteCommand, Error, HardwareHartId, Reply, ResumableOperation, Resumed};
use plain::{are_sound, original_command, started};
use std::hint::black_box;

mod plain;

/// The hardware hart that holds a hart.
const K: usize = 1;

/// What the held hart waits for.
const OPERATION: ResumableOperation = ResumableOperation { kind: 3, x: 4, y: 5 };

/// The tables with room for effects.
#[derive(Clone, PartialEq)]
struct Lent {
    tables: Tables,
    effects: Vec<u64>,
}

/// Process as one would write it.
fn process(lent: &mut Lent, k: usize) -> Reply<u64> {
    let Lent { tables, effects } = lent;
    let refused = |error| Reply { did: 0, answer: Err(error) };
    if !are_sound(tables) {
        return refused(Error::TablesNotSound);
    }
    if effects.len() < 64 * EFFECT_WORDS {
        return refused(Error::RoomTooShort);
    }
    if k as u64 >= tables.head[1] {
        return refused(Error::NoSuchHardwareHart);
    }
    let held = &mut tables.hardware[k * HART_WORDS..][..HART_WORDS];
    if held[0] == 0 {
        return refused(Error::HardwareHartIdle);
    }
    let queue = &mut tables.queues[held[1] as usize * QUEUE_WORDS..][..QUEUE_WORDS];
    let count = queue[0];
    for (effect, command) in effects.chunks_exact_mut(EFFECT_WORDS).zip(queue[1..].chunks_exact(6)).take(count as usize) {
        effect[0] = held[1];
        effect[1..].copy_from_slice(command);
        if command[0] == 6 {
            held[2] = 3;
        }
    }
    queue.fill(0);
    Reply { did: count as usize, answer: Ok(count) }
}

/// Resume as one would write it.
fn resume(lent: &mut Lent, k: usize) -> Reply<Resumed> {
    let Reply { did, answer } = process(lent, k);
    let resumed = answer.map(|_| {
        let held = &mut lent.tables.hardware[k * HART_WORDS..][..HART_WORDS];
        if held[2] == 3 {
            Resumed::Off
        } else if held[3] != 0 {
            let operation = ResumableOperation { kind: held[3], x: held[4], y: held[5] };
            held[3..6].fill(0);
            Resumed::Operation(operation)
        } else {
            Resumed::Run
        }
    });
    Reply { did, answer: resumed }
}

/// Hardware hart 1 holds the last hart, which waits for an operation. So many commands wait for it, and none for the others.
fn held(n: usize, m: usize, waiting: usize) -> Lent {
    let (mut tables, _, _) = started(n, m, 0);
    let mut vm = tables.lend();
    assert_eq!(vm.steal_confidential_hart(ConfidentialHartId(n as u64 - 1), HardwareHartId(K as u64)), Ok(0));
    assert_eq!(vm.confidential_flow(HardwareHartId(K as u64)).set_resumable_operation(&OPERATION), Ok(()));
    for start in 0..waiting as u64 {
        let command = ConfidentialHartRemoteCommand::remote_sfence_vma(1, n as u64 - 1, start, 4096);
        assert_eq!(vm.broadcast_remote_command(n as u64, &command), Ok(1 << K));
    }
    Lent { tables, effects: vec![u64::MAX; 64 * EFFECT_WORDS] }
}

/// Our process.
fn our_process(lent: &mut Lent) -> Reply<u64> {
    let Lent { tables, effects } = black_box(lent);
    tables.lend().confidential_flow(HardwareHartId(K as u64)).process_confidential_hart_remote_commands(effects)
}

/// Our resume.
fn our_resume(lent: &mut Lent) -> Reply<Resumed> {
    let Lent { tables, effects } = black_box(lent);
    tables.lend().confidential_flow(HardwareHartId(K as u64)).resume_confidential_hart_execution(effects)
}

/// Times process and resume, and what of a process is not the judging of the tables.
fn time_queued(n: usize, m: usize, waiting: usize) {
    let start = held(n, m, waiting);
    let (mut ours, mut rust) = (start.clone(), start.clone());
    // The hart's record and its queue are as they were: these are all that the two write.
    let (row, queue) = (K * HART_WORDS..(K + 1) * HART_WORDS, (n - 1) * QUEUE_WORDS..n * QUEUE_WORDS);
    let ready = |lent: &mut Lent| {
        lent.tables.hardware[row.clone()].copy_from_slice(&start.tables.hardware[row.clone()]);
        lent.tables.queues[queue.clone()].copy_from_slice(&start.tables.queues[queue.clone()]);
    };
    let size = format!("{waiting} commands, {n} harts");
    let processed = Reply { did: waiting, answer: Ok(waiting as u64) };
    ratio_on(
        &format!("process, {size}"),
        [&mut ours, &mut rust],
        ready,
        |lent| assert_eq!(our_process(lent), processed),
        |lent| assert_eq!(process(black_box(lent), black_box(K)), processed),
    );
    assert!(ours == rust);
    let resumed = Reply { did: waiting, answer: Ok(Resumed::Operation(OPERATION)) };
    ratio_on(
        &format!("resume, {size}"),
        [&mut ours, &mut rust],
        ready,
        |lent| assert_eq!(our_resume(lent), resumed),
        |lent| assert_eq!(resume(black_box(lent), black_box(K)), resumed),
    );
    assert!(ours == rust);
    ratio_on(
        &format!("process beside our soundness alone, {size}"),
        [&mut ours, &mut rust],
        ready,
        |lent| assert_eq!(our_process(lent), processed),
        |lent| assert!(black_box(lent).tables.lend().are_tables_sound()),
    );
}

/// Times the broadcast of the command that waits last, from the last hart to all, which does it itself: each other queue is searched, and no
/// table changes.
fn time_broadcast(n: usize, m: usize, waiting: usize) {
    let (mut ours, mut rust, last) = started(n, m, waiting);
    let mut hardware_hart = HardwareHart::init(K);
    let on = HardwareHartId(K as u64);
    assert_eq!(ours.lend().steal_confidential_hart(ConfidentialHartId(n as u64 - 1), on), Ok(0));
    rust.steal_confidential_hart(n - 1, &mut hardware_hart).expect("it may run");
    let words = ours.clone();
    let command = original_command(&last);
    let mut effects = [[u64::MAX; EFFECT_WORDS]; 2];
    let [did, did_too] = &mut effects;
    ratio(
        &format!("flow broadcast, queues of {waiting}, {n} harts"),
        || {
            let mut vm = black_box(&mut ours).lend();
            let given = vm.confidential_flow(on).broadcast_remote_command(black_box(&last), black_box(did));
            assert_eq!(given, Reply { did: 1, answer: Ok(0) });
        },
        || {
            assert!(are_sound(black_box(&words)));
            let sender = black_box(&hardware_hart).confidential_hart().confidential_hart_id();
            if black_box(&command).is_hart_selected(sender) {
                did_too[0] = sender as u64;
                did_too[1..].copy_from_slice(&black_box(&last).numbers());
            }
            black_box(&mut rust).broadcast_remote_command(sender, black_box(command.clone())).expect("it waits already");
        },
    );
    assert!(effects[0] == effects[1] && ours == words);
}

fn main() {
    println!("| work | time against plain Rust |");
    println!("|---|---|");
    for (n, m) in [(8, 4), (1024, 64)] {
        for waiting in [0, 64] {
            time_queued(n, m, waiting);
        }
        for waiting in [1, 63] {
            time_broadcast(n, m, waiting);
        }
    }
}
