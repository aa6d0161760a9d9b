//! Document 01 written out in plain Rust: its paragraph on sound tables, and its table of the numbers given back with the order of the checks.
use crate::entries::{records_asked, value_words_asked};
use crate::pair::Ask;
use crate::tables::Tables;
use crate::{EFFECT_WORDS, HART_WORDS, HEAD_WORDS, MOST_REGIONS, QUEUE_WORDS, REGION_WORDS};
use oracle::driver::{Command, Request};

/// A record's parts are known ones, an absent operation has two zeros, and a dummy is Started, has no operation and zero registers.
pub fn is_record(row: &[u64]) -> bool {
    let [vm, _, lifecycle, operation, x, y, registers @ ..] = row else { panic!("a row has twelve words") };
    let absent = *operation != 0 || (*x == 0 && *y == 0);
    let dummy = *vm != 0 || (*lifecycle == 0 && *operation == 0 && registers == [0; 6]);
    *vm <= 1 && *lifecycle <= 3 && *operation <= 5 && absent && dummy
}

/// The kind is known, and a number that it does not use is 0.
fn is_command(c: &[u64]) -> bool {
    match c[0] {
        1 | 2 => c[3] == 0 && c[4] == 0 && c[5] == 0,
        3 => c[5] == 0,
        4 | 5 => true,
        6 => c[1..].iter().all(|&number| number == 0),
        _ => false,
    }
}

/// The count is in range, each command that waits is well formed, and unused places are 0.
pub fn is_queue(queue: &[u64]) -> bool {
    let count = queue[0];
    count <= 64 && {
        let (waiting, unused) = queue[1..].split_at(6 * count as usize);
        waiting.chunks_exact(6).all(is_command) && unused.iter().all(|&word| word == 0)
    }
}

/// There is room for 1,024, the count is in range, base ≤ end, and unused places are 0.
pub fn is_region_table(words: &[u64], count: u64) -> bool {
    words.len() >= REGION_WORDS * MOST_REGIONS && count <= MOST_REGIONS as u64 && {
        let (standing, unused) = words[..REGION_WORDS * MOST_REGIONS].split_at(REGION_WORDS * count as usize);
        standing.chunks_exact(2).all(|place| place[0] <= place[1]) && unused.iter().all(|&word| word == 0)
    }
}

/// The tables are long enough for n harts and m hardware harts.
pub fn is_long_enough(tables: &Tables, n: usize, m: usize) -> bool {
    tables.runs().iter().zip(Tables::needed(n, m)).all(|(run, needed)| run.len() >= needed)
}

/// The tables are long enough, counts are in range, records are as they must be, unused places are 0, and home row h holds dummy k exactly when
/// hardware row k holds real hart h.
pub fn are_sound(tables: &Tables) -> bool {
    let [n, m, _, regions] = *tables.head.first_chunk().unwrap_or(&[0; HEAD_WORDS]);
    if !(1..=1024).contains(&n) || !(1..=64).contains(&m) || !is_long_enough(tables, n as usize, m as usize) {
        return false;
    }
    let (home, hardware) = (&tables.home[..n as usize * HART_WORDS], &tables.hardware[..m as usize * HART_WORDS]);
    let rows = |table| <[u64]>::chunks(table, HART_WORDS).zip(0u64..).map(|(row, i)| (row[0], row[1], i));
    // The pairs (h, k) where home row h holds dummy k, and those where hardware row k holds real hart h.
    let mut stolen: Vec<_> = rows(home).filter(|&(vm, ..)| vm == 0).map(|(_, k, h)| (h, k)).collect();
    let mut held: Vec<_> = rows(hardware).filter(|&(vm, ..)| vm == 1).map(|(_, h, k)| (h, k)).collect();
    stolen.sort();
    held.sort();
    home.chunks(HART_WORDS).chain(hardware.chunks(HART_WORDS)).all(is_record)
        && rows(home).all(|(vm, id, h)| if vm == 1 { id == h } else { id < m })
        && rows(hardware).all(|(vm, id, k)| if vm == 0 { id == k } else { id < n })
        && stolen == held
        && tables.queues[..n as usize * QUEUE_WORDS].chunks(QUEUE_WORDS).all(is_queue)
        && is_region_table(&tables.regions, regions)
}

/// The number that a request on tables is answered with. The caller says whether the tables are sound.
pub fn number(tables: &Tables, is_sound: bool, ask: &Ask) -> u64 {
    checks(tables, is_sound, ask).err().unwrap_or(0)
}

fn check(holds: bool, number: u64) -> Result<(), u64> {
    if holds { Ok(()) } else { Err(number) }
}

/// The checks in document 01's order. Too little room for values is 13 and comes first: that check is the C functions' own.
fn checks(tables: &Tables, is_sound: bool, ask: &Ask) -> Result<(), u64> {
    check(ask.value_words >= value_words_asked(&ask.request), 13)?;
    if let Request::Setup { harts, hardware_harts, boot, .. } = ask.request {
        check((1..=1024).contains(&harts) && (1..=64).contains(&hardware_harts) && boot < harts, 18)?;
        return check(is_long_enough(tables, harts, hardware_harts), 13);
    }
    check(is_sound, 12)?;
    check(ask.effects_words >= EFFECT_WORDS * records_asked(&ask.request), 13)?;
    let (n, m) = tables.sizes();
    // The row of the real hart that a hardware hart holds.
    let held = |k: usize| {
        check(k < m, 14)?;
        check(tables.hardware_row(k)[0] == 1, 16)?;
        Ok(tables.hardware_row(k))
    };
    let is_known = |command: Command| is_command(&command.numbers().map(|number| number as u64));
    match ask.request {
        Request::Setup { .. } | Request::Allow { .. } | Request::Home => Ok(()),
        Request::Steal { hart, hardware_hart } => {
            check(hardware_hart < m, 14)?;
            check(tables.hardware_row(hardware_hart)[0] == 0, 15)?;
            check(hart < n, 1)?;
            check(tables.home_row(hart)[0] == 1, 2)?;
            check(is_executable(tables.home_row(hart)), 3)
        }
        Request::Start { hart, .. } => {
            check(hart < n, 1)?;
            check(tables.home_row(hart)[0] == 1, 2)?;
            check(tables.home_row(hart)[2] == 1, 4)
        }
        Request::Suspend { hardware_hart } => check(held(hardware_hart)?[2] == 0, 5),
        Request::Stop { hardware_hart } => check(held(hardware_hart)?[2] == 0, 6),
        Request::Wake { hardware_hart, .. } => check(held(hardware_hart)?[2] == 2, 7),
        Request::Return { hardware_hart }
        | Request::Off { hardware_hart }
        | Request::Process { hardware_hart }
        | Request::Resume { hardware_hart } => held(hardware_hart).map(|_| ()),
        Request::Status { hart } => check(hart < n, 1),
        Request::Await { hardware_hart, kind, .. } => {
            check((1..=5).contains(&kind), 19)?;
            check(held(hardware_hart)?[3] == 0, 17)
        }
        Request::Broadcast { hardware_hart, command } => {
            check(is_known(command), 19)?;
            let sender = held(hardware_hart)?[1];
            check(all_have_room(tables, sender, command), 8)
        }
        Request::Send { sender, command } => {
            check(is_known(command), 19)?;
            check(all_have_room(tables, sender as u64, command), 8)
        }
        Request::Add { .. } | Request::Remove { .. } | Request::Defined { .. } => {
            region_checks(&tables.regions, tables.head[3], &ask.request)
        }
    }
}

/// The checks of a request on regions that follow 12.
fn region_checks(words: &[u64], count: u64, request: &Request) -> Result<(), u64> {
    match *request {
        Request::Add { base, size } => {
            let end = base.checked_add(size).ok_or(11_u64)?;
            let overlaps = |place: &[u64]| overlap([place[0] as usize, place[1] as usize], [base, end]);
            check(count < MOST_REGIONS as u64, 9)?;
            check(!words.chunks(REGION_WORDS).take(count as usize).any(overlaps), 10)
        }
        Request::Remove { base, size } | Request::Defined { base, size } => check(base.checked_add(size).is_some(), 11),
        _ => panic!("this is not asked of regions: {request:?}"),
    }
}

/// The number that adding, removing or asking for a region is answered with on a run of records alone, whose words are given: 12 is judged on the
/// run.
pub fn run_number(words: &[u64], count: u64, request: &Request) -> u64 {
    check(is_region_table(words, count), 12).and_then(|()| region_checks(words, count, request)).err().unwrap_or(0)
}

/// The numbers that the changes of a record alone are answered with: start, suspend, stop, wake and off.
pub fn change_numbers(row: &[u64]) -> [u64; 5] {
    match row[2] {
        _ if !is_record(row) => [12; 5],
        _ if row[0] == 0 => [2, 16, 16, 16, 16],
        0 => [4, 0, 0, 7, 0],
        1 => [0, 5, 6, 7, 0],
        2 => [4, 5, 6, 0, 0],
        _ => [4, 5, 6, 7, 0],
    }
}

/// The base is 2^64 − 1, or the hart's bit, counted from the base, is in the mask; kind 6 selects all.
pub fn is_selected(command: &Command, h: usize) -> bool {
    command.kind == 6
        || command.base == usize::MAX
        || h.checked_sub(command.base).is_some_and(|bit| bit < 64 && command.mask >> bit & 1 == 1)
}

/// Two regions, each as its base and its end: each base is below the other's end.
pub fn overlap(one: [usize; 2], other: [usize; 2]) -> bool {
    one[0] < other[1] && other[0] < one[1]
}

/// A home row takes commands, and its hart may be stolen: a dummy is Started.
fn is_executable(row: &[u64]) -> bool {
    row[2] == 0 || row[2] == 2
}

/// Every hart that a command goes to has fewer than 64 waiting.
fn all_have_room(tables: &Tables, sender: u64, command: Command) -> bool {
    let takes = |h: usize| is_selected(&command, h) && h as u64 != sender && is_executable(tables.home_row(h));
    (0..tables.sizes().0).filter(|&h| takes(h)).all(|h| tables.queue(h)[0] < 64)
}
