//! The edges: setups at every limit, regions and queues that fill up, a full queue among the receivers, every bit of a mask and bases at every
//! limit, every form of a command, and all hardware harts busy.
use super::{Agreed, Run};
use crate::QUEUE_WORDS;
use crate::draw::{MAX, noise};
use crate::entries::by_c;
use crate::pair::Step;
use crate::seen::Seen;
use crate::tables::{Table, Tables};
use oracle::driver::{Command, Random, Request};

/// A job of the edges.
type Edge = Box<dyn Fn() -> Agreed<Run> + Sync>;

/// Every edge, as jobs that go side by side.
pub fn jobs() -> Vec<Edge> {
    let mut jobs: Vec<Edge> = vec![Box::new(setups), Box::new(regions)];
    for n in [2, 3, 8, 65] {
        jobs.extend([false, true].map(|stolen| Box::new(move || queues(n, stolen)) as Edge));
    }
    for n in [3, 4, 8, 65, 1024] {
        jobs.push(Box::new(move || full_queues(n)));
    }
    for n in [1, 2, 63, 64, 65, 66, 128, 1023, 1024] {
        jobs.push(Box::new(move || masks(n)));
    }
    jobs.extend([Box::new(forms) as Edge, Box::new(all_busy)]);
    jobs
}

/// What a job compared.
pub fn run(edge: &Edge) -> Agreed<Seen> {
    edge().map(|run| run.seen())
}

/// A VM whose harts all are started.
fn started(n: usize, m: usize) -> Agreed<Run> {
    let mut run = Run::new(noise(&mut Random::new(n as u64), n, m), by_c);
    run.take(Request::Setup { harts: n, hardware_harts: m, boot: 0, a1: 1, mepc: 2, vsatp: 3, vsstatus: 7 })?;
    for hart in 1..n {
        run.take(Request::Start { hart, address: 5, opaque: 6 })?;
    }
    Ok(run)
}

/// Setups around every limit of n, m and the boot hart, on tables as long as is needed, and one at a time too short, empty or longer.
fn setups() -> Agreed<Run> {
    let mut run = Run::new(noise(&mut Random::new(1), 1024, 64), by_c);
    for n in [0, 1, 2, 1023, 1024, 1025, MAX] {
        for m in [0, 1, 2, 63, 64, 65, MAX] {
            let needed = Tables::needed(n.min(1024), m.min(64));
            let boots = [0, n.wrapping_sub(1), n, MAX];
            let setups = |boots: &[usize]| {
                let setup = |&boot: &usize| Request::Setup { harts: n, hardware_harts: m, boot, a1: 1, mepc: 2, vsatp: 3, vsstatus: MAX };
                boots.iter().map(setup).collect::<Vec<_>>()
            };
            for (table, words) in Table::ALL.into_iter().zip(needed) {
                run.take(Step::Resize { table, words })?;
            }
            run.each(setups(&boots))?;
            let here = run.moment();
            for (table, needed) in Table::ALL.into_iter().zip(needed) {
                for words in [needed.saturating_sub(1), 0, needed + 9] {
                    run.branch(&here, Step::Resize { table, words }, |run| run.each(setups(&boots[..1])))?;
                }
            }
        }
    }
    Ok(run)
}

/// Regions of 8 bytes, 16 apart, up to 1,024 and one more; with 0, 1, 1,023 and 1,024 of them, requests around each limit.
fn regions() -> Agreed<Run> {
    let mut run = started(2, 1)?;
    let bases = [0, 1, 7, 8, 15, 16, 16 * 511 + 4, 16 * 1022, 16 * 1023, 16 * 1024, 1 << 63, MAX - 8, MAX - 1, MAX];
    let sizes = [0, 1, 7, 8, 9, 16, 17, 16 * 1024, 1 << 63, MAX - 1, MAX];
    for count in 0..1026 {
        if [0, 1, 2, 1022, 1023, 1024, 1025].contains(&count) {
            let all = bases.into_iter().flat_map(|base| sizes.map(|size| (base, size)));
            run.each(
                all.flat_map(|(base, size)| [Request::Add { base, size }, Request::Remove { base, size }, Request::Defined { base, size }]),
            )?;
        }
        run.take(Request::Add { base: 16 * count, size: 8 })?;
    }
    Ok(run)
}

fn fence(start: usize, mask: usize) -> Command {
    Command { kind: 3, mask, base: 0, start, size: 1, tag: 0 }
}

/// Hart 1's queue from 0 to 64 commands: at each count a new command, the first and the last again, and a shutdown request, sent and broadcast;
/// and it is emptied. Hart 0 sends, from hardware hart 0; hart 1 is at home or on hardware hart 1.
fn queues(n: usize, stolen: bool) -> Agreed<Run> {
    let mut run = started(n, 2)?;
    run.take(Request::Steal { hart: 0, hardware_hart: 0 })?;
    if stolen {
        run.take(Request::Steal { hart: 1, hardware_hart: 1 })?;
    }
    for count in 0..66 {
        let shutdown = Command { kind: 6, ..Command::default() };
        let commands = [fence(count, 2), fence(0, 2), fence(count.saturating_sub(1), 2), fence(count, 3), shutdown];
        run.each(commands.into_iter().flat_map(|command| {
            [Request::Send { sender: 0, command }, Request::Send { sender: 1, command }, Request::Broadcast { hardware_hart: 0, command }]
        }))?;
        run.each([Request::Process { hardware_hart: 1 }, Request::Resume { hardware_hart: 1 }])?;
        run.take(Request::Send { sender: 0, command: fence(count, 2) })?;
    }
    Ok(run)
}

/// A queue of 64 commands.
fn full_queue() -> Vec<u64> {
    let commands = (0..64).flat_map(|start| fence(start, MAX).numbers());
    [64].into_iter().chain(commands.map(|number| number as u64)).collect()
}

/// A command to all, where the first, a middle or the last receiver is full; the sender is selected or not, and on a hardware hart.
fn full_queues(n: usize) -> Agreed<Run> {
    let mut run = started(n, 3)?;
    let middle = n / 2;
    run.take(Request::Steal { hart: middle, hardware_hart: 2 })?;
    run.take(Request::Steal { hart: n - 1, hardware_hart: 0 })?;
    let here = run.moment();
    for full in [0, 1, middle, n - 2, n - 1] {
        run.branch(&here, Step::Replace { table: Table::Queues, place: full * QUEUE_WORDS, words: full_queue() }, |run| {
            let command = |kind| match kind {
                1 | 2 => Command { kind, mask: 0, base: MAX, ..Command::default() },
                6 => Command { kind, ..Command::default() },
                _ => Command { kind, mask: 5, base: MAX, start: 7, size: 1, tag: 0 },
            };
            // A command that waits there already, and one with the sender's bit alone or without it.
            let (waiting, last) = (fence(7, MAX), n - 1);
            let one = |h: usize| Command { kind: 1, mask: 1, base: h, ..Command::default() };
            let commands =
                (1..=6).map(command).chain([waiting, one(full), one(last), Command { base: last.saturating_sub(63), ..waiting }]);
            run.each(commands.flat_map(|command| {
                [0, full, last, MAX].map(|sender| Request::Send { sender, command }).into_iter().chain([
                    Request::Broadcast { hardware_hart: 0, command },
                    Request::Broadcast { hardware_hart: 2, command },
                    Request::Broadcast { hardware_hart: 1, command },
                ])
            }))
        })?;
    }
    Ok(run)
}

/// Every bit of a mask, none and all, with bases around every limit.
fn masks(n: usize) -> Agreed<Run> {
    let mut run = started(n, 2)?;
    run.take(Request::Steal { hart: n - 1, hardware_hart: 1 })?;
    let around = |limit: usize| {
        [limit.wrapping_sub(65), limit.wrapping_sub(64), limit.wrapping_sub(63), limit.wrapping_sub(1), limit, limit.wrapping_add(1)]
    };
    let mut bases: Vec<usize> = [0, 64, n, 1024, 1 << 32, 1 << 63].into_iter().flat_map(around).collect();
    bases.sort();
    bases.dedup();
    let masks: Vec<usize> = (0..64).map(|bit| 1 << bit).chain([0, MAX]).collect();
    run.each(bases.iter().flat_map(|&base| {
        masks.iter().map(move |&mask| Request::Send { sender: 0, command: Command { kind: 2, mask, base, ..Command::default() } })
    }))?;
    run.each(
        bases
            .iter()
            .map(|&base| Request::Broadcast { hardware_hart: 1, command: Command { kind: 1, mask: MAX, base, ..Command::default() } }),
    )?;
    Ok(run)
}

/// Every kind of command and operation and some that do not exist, each command with each set of its numbers not 0.
fn forms() -> Agreed<Run> {
    let mut run = started(2, 1)?;
    run.take(Request::Steal { hart: 0, hardware_hart: 0 })?;
    let kinds = (0..9).chain([63, 64, 1 << 32, 1 << 63, MAX]);
    run.each(kinds.clone().flat_map(|kind| {
        (0..32).flat_map(move |set: usize| {
            let [mask, base, start, size, tag] = std::array::from_fn(|place| set >> place & 1);
            let command = Command { kind, mask, base, start, size, tag };
            [Request::Send { sender: 0, command }, Request::Broadcast { hardware_hart: 0, command }]
        })
    }))?;
    run.each(kinds.map(|kind| Request::Await { hardware_hart: 0, kind, x: 1, y: 2 }))?;
    Ok(run)
}

/// All 64 hardware harts hold harts: a command to all gives a mask of 64 bits, and one more steal finds none free.
fn all_busy() -> Agreed<Run> {
    let mut run = started(66, 64)?;
    for hart in 0..64 {
        run.take(Request::Steal { hart: hart + 1, hardware_hart: hart })?;
    }
    let all = Command { kind: 2, mask: 0, base: MAX, ..Command::default() };
    run.each([0, 1, 64, 65, MAX].map(|sender| Request::Send { sender, command: all }))?;
    run.each((0..65).flat_map(|hardware_hart| {
        [
            Request::Broadcast { hardware_hart, command: all },
            Request::Broadcast { hardware_hart, command: Command { kind: 6, ..Command::default() } },
            Request::Steal { hart: 65, hardware_hart },
            Request::Return { hardware_hart },
        ]
    }))?;
    Ok(run)
}
