//! Damaged tables: words replaced, rows exchanged or copied, and tables lent too short, empty or longer. Requests of every kind are asked of each.
use super::sequences::sequence;
use super::{Agreed, Run};
use crate::draw::{EFFECTS_WORDS, any, command, mostly_below};
use crate::entries::by_c;
use crate::pair::{Ask, MOST_VALUE_WORDS, Step};
use crate::seen::Seen;
use crate::tables::{Table, Tables};
use crate::{HART_WORDS, MOST_REGIONS, QUEUE_WORDS, REGION_WORDS};
use oracle::driver::{Random, Request};

/// Words that stand for each limit of document 01: of counts, numbers, states and kinds.
pub const LIMITS: [u64; 16] = [0, 1, 2, 3, 4, 5, 6, 7, 63, 64, 65, 1023, 1024, 1025, 1 << 63, u64::MAX];

/// A request of each kind, mostly for a hart and a hardware hart that there are, now and then with too little room.
fn one_of_each(random: &mut Random, (n, m): (usize, usize)) -> Vec<Step> {
    let (hart, hardware_hart) = (mostly_below(random, n), mostly_below(random, m));
    let [address, opaque, base] = [(); 3].map(|()| any(random));
    let command = command(random, n, 9);
    let setup = Request::Setup { harts: n, hardware_harts: m, boot: random.below(n), a1: address, mepc: opaque, vsatp: 1, vsstatus: base };
    let requests = [
        setup,
        Request::Steal { hart, hardware_hart },
        Request::Return { hardware_hart },
        Request::Start { hart, address, opaque },
        Request::Suspend { hardware_hart },
        Request::Stop { hardware_hart },
        Request::Wake { hardware_hart, address, opaque },
        Request::Off { hardware_hart },
        Request::Status { hart },
        Request::Await { hardware_hart, kind: random.below(7), x: address, y: opaque },
        Request::Process { hardware_hart },
        Request::Resume { hardware_hart },
        Request::Broadcast { hardware_hart, command },
        Request::Send { sender: hart, command },
        Request::Allow { bits: base },
        Request::Add { base, size: 8 },
        Request::Remove { base, size: 8 },
        Request::Defined { base, size: 8 },
        Request::Home,
    ];
    let mut lent = |request| {
        let mut ask = Ask::from(request);
        if random.one_in(8) {
            ask.effects_words = random.of(&EFFECTS_WORDS);
        }
        if random.one_in(32) {
            ask.value_words = random.below(MOST_VALUE_WORDS);
        }
        Step::Ask(ask)
    };
    requests.map(&mut lent).into()
}

/// Damages the tables by these steps, asks a request of each kind, and goes back.
fn damaged(run: &mut Run, random: &mut Random, size: (usize, usize), steps: &[Step]) -> Agreed<()> {
    let [first, rest @ ..] = steps else { return run.each(one_of_each(random, size)) };
    let here = run.moment();
    run.branch(&here, first.clone(), |run| damaged(run, random, size, rest))
}

/// A good state of so many harts and hardware harts: after random requests one hart is held and waits for an operation, one queue is full and
/// one has two commands, and regions stand, in every fourth state all that there may be.
pub fn good(seed: u64, size: (usize, usize)) -> Agreed<Run> {
    let mut run = sequence(seed, size, if size.0 < 63 { 400 } else { 60 }, by_c)?;
    let (n, m) = run.tables().sizes();
    let words = |table, place, words: &[u64]| Step::Replace { table, place, words: words.to_vec() };
    if (0..m).all(|k| run.tables().hardware_row(k)[0] == 0) {
        run.take(words(Table::Hardware, 0, &[1, 0, 0, 0, 0, 0, 1, 2, 3, 4, 5, 6]))?;
        run.take(words(Table::Home, 0, &[0; HART_WORDS]))?;
    }
    let held = (0..m).find(|&k| run.tables().hardware_row(k)[0] == 1).expect("one is held");
    run.take(words(Table::Hardware, held * HART_WORDS + 3, &[4, 8, 9]))?;
    let command = |start| [3, u64::MAX, 0, start, 4096, 0];
    let queue =
        |count: u64| [count].into_iter().chain((0..count).flat_map(command)).chain([0; QUEUE_WORDS]).take(QUEUE_WORDS).collect::<Vec<_>>();
    run.take(words(Table::Queues, 0, &queue(2)))?;
    run.take(words(Table::Queues, (n - 1) * QUEUE_WORDS, &queue(64)))?;
    let regions = if seed % 4 == 0 { MOST_REGIONS as u64 } else { 3 };
    run.take(words(Table::Head, 3, &[0]))?;
    run.take(words(Table::Regions, 0, &[0; MOST_REGIONS * REGION_WORDS]))?;
    run.take(words(Table::Regions, 0, &(0..regions).flat_map(|place| [16 * place, 16 * place + 8]).collect::<Vec<_>>()))?;
    run.take(words(Table::Head, 3, &[regions]))?;
    Ok(run)
}

/// Places of a table: all, or so many, half of them in queues about the counts and the ends of what waits.
fn places(random: &mut Random, tables: &Tables, table: Table, most: usize) -> Vec<usize> {
    let length = tables.runs()[table as usize].len();
    if length <= most {
        return (0..length).collect();
    }
    let place = |_| {
        let h = random.below(tables.sizes().0);
        let waiting = 6 * tables.queue(h)[0] as usize;
        match table {
            Table::Queues if random.one_in(2) => {
                let telling = [0, 1, 2, 6, waiting.saturating_sub(5), waiting, (waiting + 1).min(QUEUE_WORDS - 1), QUEUE_WORDS - 1];
                h * QUEUE_WORDS + random.of(&telling)
            }
            _ => random.below(length),
        }
    };
    (0..most).map(place).collect()
}

/// One table of a good state: each word, or so many, by each limit, by the numbers beside it, by a bit, and by any number.
pub fn words(seed: u64, size: (usize, usize), table: Table, most: usize) -> Agreed<Seen> {
    let random = &mut Random::new(seed);
    let mut run = good(seed, size)?;
    for place in places(random, run.tables(), table, most) {
        let word = run.tables().runs()[table as usize][place];
        let others = [word.wrapping_add(1), word.wrapping_sub(1), word ^ 1 << random.below(64), random.next() as u64];
        for word in LIMITS.into_iter().chain(others).filter(|&other| other != word) {
            damaged(&mut run, random, size, &[Step::Replace { table, place, words: vec![word] }])?;
        }
    }
    Ok(run.seen())
}

/// Rows of a good state exchanged or copied: two numbers of harts, a row in the other table, a row or a queue twice.
pub fn rows(seed: u64, size: (usize, usize), times: usize) -> Agreed<Seen> {
    let random = &mut Random::new(seed);
    let mut run = good(seed, size)?;
    for _ in 0..times {
        let tables = run.tables();
        let (n, m) = tables.sizes();
        let [a, b] = [(); 2].map(|()| random.below(n));
        let [c, d] = [(); 2].map(|()| random.below(m));
        let words = |table, place, words: &[u64]| Step::Replace { table, place, words: words.to_vec() };
        let number = |row: &[u64]| row[1..2].to_vec();
        let steps = match random.below(7) {
            0 => vec![
                words(Table::Home, a * HART_WORDS + 1, &number(tables.home_row(b))),
                words(Table::Home, b * HART_WORDS + 1, &number(tables.home_row(a))),
            ],
            1 => vec![
                words(Table::Hardware, c * HART_WORDS + 1, &number(tables.hardware_row(d))),
                words(Table::Hardware, d * HART_WORDS + 1, &number(tables.hardware_row(c))),
            ],
            2 => vec![words(Table::Home, a * HART_WORDS, tables.hardware_row(c))],
            3 => vec![words(Table::Hardware, c * HART_WORDS, tables.home_row(a))],
            4 => {
                vec![words(Table::Home, a * HART_WORDS, tables.hardware_row(c)), words(Table::Hardware, c * HART_WORDS, tables.home_row(a))]
            }
            5 => vec![words(Table::Home, a * HART_WORDS, tables.home_row(b))],
            _ => vec![words(Table::Queues, a * QUEUE_WORDS, tables.queue(b))],
        };
        damaged(&mut run, random, size, &steps)?;
    }
    Ok(run.seen())
}

/// Each table of a good state one word short, empty, as long as is needed, and longer.
pub fn lengths(seed: u64, size: (usize, usize)) -> Agreed<Seen> {
    let random = &mut Random::new(seed);
    let mut run = good(seed, size)?;
    let (n, m) = run.tables().sizes();
    for (table, needed) in Table::ALL.into_iter().zip(Tables::needed(n, m)) {
        for words in [needed - 1, 0, needed / 2, needed, needed + 1, needed + 100] {
            damaged(&mut run, random, size, &[Step::Resize { table, words }])?;
        }
    }
    Ok(run.seen())
}
