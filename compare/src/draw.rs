//! Numbers, commands, tables and steps, drawn at random: mostly such that a request is done.
use crate::pair::{Ask, MOST_VALUE_WORDS, ROOM, Step};
use crate::tables::{Table, Tables};
use crate::{EFFECT_WORDS, HART_WORDS};
use oracle::driver::{Command, Random, Request};

pub const MAX: usize = usize::MAX;
const EDGES: [usize; 12] = [0, 1, 2, 63, 64, 65, 1023, 1024, 1 << 32, 1 << 63, MAX - 1, MAX];
/// Words for effects: none; for one record and for 64, and one word less; and a few words more.
pub const EFFECTS_WORDS: [usize; 6] = [0, EFFECT_WORDS - 1, EFFECT_WORDS, 64 * EFFECT_WORDS - 1, 64 * EFFECT_WORDS, ROOM];

/// A number at an edge, or any.
pub fn any(random: &mut Random) -> usize {
    if random.one_in(2) { random.of(&EDGES) } else { random.next() }
}

/// Mostly a number below n, and of those mostly one that fits.
fn mostly(random: &mut Random, n: usize, fits: impl Fn(usize) -> bool) -> usize {
    let first = random.below(n);
    match random.below(24) {
        0 => n,
        1 => any(random),
        2 => n - 1,
        3..6 => first,
        _ => (first..n).chain(0..first).find(|&number| fits(number)).unwrap_or(first),
    }
}

pub fn mostly_below(random: &mut Random, n: usize) -> usize {
    mostly(random, n, |_| true)
}

/// Tables with room for n harts and m hardware harts and a few words more, all of them noise.
pub fn noise(random: &mut Random, n: usize, m: usize) -> Tables {
    let words = Tables::needed(n, m).map(|needed| needed + random.below(20));
    Tables::filled(words, || random.next() as u64)
}

/// A setup of so many harts and hardware harts.
pub fn setup(random: &mut Random, n: usize, m: usize) -> Request {
    let [a1, mepc, vsatp, vsstatus] = [(); 4].map(|()| any(random));
    Request::Setup { harts: n, hardware_harts: m, boot: random.below(n), a1, mepc, vsatp, vsstatus }
}

/// Mostly a well-formed command; `spread` is how many numbers its own are drawn from.
pub fn command(random: &mut Random, n: usize, spread: usize) -> Command {
    let mask = match random.below(4) {
        0 => 1 << random.below(64),
        1 => MAX,
        _ => random.next(),
    };
    let base = match random.below(6) {
        0 => any(random),
        1 => random.below(n),
        2 => n.saturating_sub(random.below(66)),
        3 => 0,
        _ => MAX,
    };
    let [start, size, tag] = [(); 3].map(|()| random.below(spread));
    match random.below(20) {
        0 => Command { kind: if random.one_in(2) { random.below(9) } else { any(random) }, mask, base, start, size, tag },
        1 if random.one_in(4) => Command { kind: 6, ..Command::default() },
        1..5 => Command { kind: 1, mask, base, ..Command::default() },
        5..7 => Command { kind: 2, mask, base, ..Command::default() },
        7..15 => Command { kind: 3, mask, base, start, size, tag: 0 },
        kind => Command { kind: 4 + kind % 2, mask, base, start, size, tag },
    }
}

/// How a run draws its steps.
pub struct Style {
    /// How many harts and hardware harts there is room for.
    most: (usize, usize),
    /// Of thirty-two steps, so many are commands sent.
    sends: usize,
    /// How many numbers a command's own are drawn from: few make duplicates, many fill queues.
    spread: usize,
    /// What regions are measured in.
    unit: usize,
}

impl Style {
    pub fn new(random: &mut Random, n: usize, m: usize) -> Self {
        Self { most: (n, m), sends: random.of(&[3, 6, 20]), spread: random.of(&[1, 2, 1000]), unit: random.of(&[1, 8, 4096]) }
    }

    /// The next step on sound tables.
    pub fn step(&self, random: &mut Random, tables: &Tables) -> Step {
        if random.one_in(40) { register(random, tables) } else { Step::Ask(self.ask(random, tables)) }
    }

    /// The next request on sound tables, now and then with little room.
    pub fn ask(&self, random: &mut Random, tables: &Tables) -> Ask {
        let mut ask = Ask::from(self.request(random, tables));
        if random.one_in(8) {
            ask.effects_words = random.of(&EFFECTS_WORDS);
        }
        if random.one_in(50) {
            ask.value_words = random.below(MOST_VALUE_WORDS);
        }
        ask
    }

    /// The next request on sound tables.
    pub fn request(&self, random: &mut Random, tables: &Tables) -> Request {
        let (n, m) = tables.sizes();
        // Mostly a hardware hart whose row is such, or a hart that is at home in one of these states.
        let on = |random: &mut Random, fits: fn(&[u64]) -> bool| mostly(random, m, |k| fits(tables.hardware_row(k)));
        let held = |row: &[u64]| row[0] == 1;
        let at_home = |random: &mut Random, states: &[u64]| {
            mostly(random, n, |h| tables.home_row(h)[0] == 1 && states.contains(&tables.home_row(h)[2]))
        };
        // Where all harts are powered off they stay so, and a smaller VM stays so for some steps: then a new VM is set up.
        let off = |row: &[u64]| row[0] == 0 || row[2] == 3;
        let all_off = (0..n).all(|h| off(tables.home_row(h))) && (0..m).all(|k| off(tables.hardware_row(k)));
        if all_off || ((n, m) != self.most && random.one_in(20)) {
            return setup(random, self.most.0, self.most.1);
        }
        if random.below(32) < self.sends {
            let command = command(random, n, self.spread);
            return match random.below(3) {
                0 => Request::Send { sender: mostly_below(random, n), command },
                _ => Request::Broadcast { hardware_hart: on(random, held), command },
            };
        }
        match random.below(80) {
            0..12 => Request::Steal { hart: at_home(random, &[0, 2]), hardware_hart: on(random, |row| row[0] == 0) },
            12..19 => Request::Return { hardware_hart: on(random, held) },
            19..26 => Request::Start { hart: at_home(random, &[1]), address: any(random), opaque: any(random) },
            26..30 => Request::Suspend { hardware_hart: on(random, |row| row[0] == 1 && row[2] == 0) },
            30..33 => Request::Stop { hardware_hart: on(random, |row| row[0] == 1 && row[2] == 0) },
            33..39 => {
                let hardware_hart = on(random, |row| row[0] == 1 && row[2] == 2);
                Request::Wake { hardware_hart, address: any(random), opaque: any(random) }
            }
            39 => Request::Off { hardware_hart: on(random, held) },
            40..47 => {
                let kind = if random.one_in(8) { random.of(&[0, 6, 7, MAX, 1 << 32]) } else { 1 + random.below(5) };
                Request::Await { hardware_hart: on(random, |row| row[0] == 1 && row[3] == 0), kind, x: any(random), y: any(random) }
            }
            47..51 => Request::Process { hardware_hart: on(random, held) },
            51..60 => Request::Resume { hardware_hart: on(random, held) },
            60..63 => Request::Status { hart: mostly_below(random, n) },
            63..65 => Request::Allow { bits: any(random) },
            at @ 65..78 => {
                let (base, size) = region(random, self.unit);
                match at {
                    65..71 => Request::Add { base, size },
                    71..74 => Request::Remove { base, size },
                    _ => Request::Defined { base, size },
                }
            }
            _ if random.one_in(8) => self.setup(random),
            _ => Request::Home,
        }
    }

    /// A setup of all harts that there is room for, of fewer, or one at or past a limit.
    fn setup(&self, random: &mut Random) -> Request {
        let (n, m) = self.most;
        match random.below(3) {
            0 => setup(random, n, m),
            1 => {
                let [n, m] = [n, m].map(|most| 1 + random.below(most));
                setup(random, n, m)
            }
            _ => {
                let (harts, hardware_harts) = (random.of(&[n, 0, 1024, 1025, MAX]), random.of(&[m, 0, 64, 65, MAX]));
                Request::Setup { harts, hardware_harts, boot: random.of(&[0, 0, n, MAX]), a1: 1, mepc: 2, vsatp: 3, vsstatus: 4 }
            }
        }
    }
}

/// The base and the size of a region, often beside or over others.
pub fn region(random: &mut Random, unit: usize) -> (usize, usize) {
    let base = match random.below(8) {
        0 => any(random),
        1 => MAX - random.below(4),
        _ => random.below(64) * unit,
    };
    (base, if random.one_in(12) { any(random) } else { random.below(6) * unit })
}

/// A real hart's register becomes another number, as when the hart has run.
fn register(random: &mut Random, tables: &Tables) -> Step {
    let (n, m) = tables.sizes();
    let (table, rows, count) = if random.one_in(2) { (Table::Home, &tables.home, n) } else { (Table::Hardware, &tables.hardware, m) };
    let first = random.below(count);
    match (first..count).chain(0..first).find(|row| rows[row * HART_WORDS] == 1) {
        Some(row) => Step::Replace { table, place: row * HART_WORDS + 6 + random.below(6), words: vec![any(random) as u64] },
        None => Step::from(Request::Home),
    }
}
