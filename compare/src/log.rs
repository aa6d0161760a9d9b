//! Document 01's chapter "Rows worked out from the log" in plain Rust. A log has an accepted setup and the requests since, each with the number
//! that it was answered with. Every row is found by looking back over the log: no tables are kept here, and none are asked.
use crate::document_01::{is_selected, overlap};
use crate::tables::{Tables, difference};
use crate::{HART_WORDS, HEAD_WORDS, MOST_REGIONS, QUEUE_WORDS, REGION_WORDS};
use oracle::driver::{Command, Request};
use std::cell::RefCell;

/// The lifecycles.
pub const STARTED: usize = 0;
pub const STOPPED: usize = 1;
pub const SUSPENDED: usize = 2;
pub const POWERED_OFF: usize = 3;

/// The mstatus of every hart after a setup: bits 39, 11, 5 and 1.
const MSTATUS: usize = 549755815970;
/// The most commands in a queue.
const MOST_COMMANDS: usize = 64;

/// A setup that was accepted.
#[derive(Clone, Debug)]
struct Setup {
    harts: usize,
    hardware_harts: usize,
    boot: usize,
    a1: usize,
    mepc: usize,
    vsatp: usize,
    vsstatus: usize,
}

/// An accepted setup, and since then the requests with the numbers that they were answered with.
#[derive(Clone, Debug)]
pub struct Log {
    setup: Setup,
    answered: Vec<(Request, u64)>,
    /// What was found so far: accepted steals of each hart, accepted returns by each hardware hart, changes of each hart's lifecycle, emptyings
    /// of its queue, commands delivered to it, and the first receivers that already had 64.
    steals: Vec<Findings<usize>>,
    returns: Vec<Findings<()>>,
    lifecycles: Vec<Findings<usize>>,
    emptyings: Vec<Findings<()>>,
    deliveries: Vec<Findings<Command>>,
    full: Findings<usize>,
}

/// Notes a request and its number in the log, if there is one.
pub type Note = fn(&mut Option<Log>, &Request, u64);

/// What a question about single requests of the log finds: each finding with the index of its request. Each request is asked about once, from
/// the oldest on, so that nothing is looked for twice.
#[derive(Clone, Debug)]
struct Findings<T>(RefCell<(usize, Vec<(usize, T)>)>);

impl<T> Default for Findings<T> {
    fn default() -> Self {
        Self(RefCell::new((0, Vec::new())))
    }
}

impl<T: Copy> Findings<T> {
    /// Asks about the requests before an index that were not asked about, and gives how many findings are before it. A question may look at what
    /// was found before the request that it asks about.
    fn look(&self, before: usize, question: impl Fn(usize) -> Option<T>) -> usize {
        let asked = self.0.borrow().0;
        for at in asked..before {
            let found = question(at);
            let (asked, findings) = &mut *self.0.borrow_mut();
            *asked = at + 1;
            findings.extend(found.map(|found| (at, found)));
        }
        self.0.borrow().1.partition_point(|(at, _)| *at < before)
    }

    /// The last finding before an index.
    fn last(&self, before: usize, question: impl Fn(usize) -> Option<T>) -> Option<(usize, T)> {
        let count = self.look(before, question);
        self.0.borrow().1[..count].last().copied()
    }

    /// The findings from one index on and before another, oldest first.
    fn since(&self, since: usize, before: usize, question: impl Fn(usize) -> Option<T>) -> Vec<T> {
        let count = self.look(before, question);
        let findings = &self.0.borrow().1[..count];
        findings[findings.partition_point(|(at, _)| *at < since)..].iter().map(|(_, found)| *found).collect()
    }
}

/// The log. `at` is the index of a request; `before` is one too, and asks for what stood before that request.
impl Log {
    /// A log of a setup alone.
    fn of_setup(setup: Setup) -> Self {
        let Setup { harts, hardware_harts, .. } = setup;
        Self {
            setup,
            answered: Vec::new(),
            steals: vec![Findings::default(); harts],
            returns: vec![Findings::default(); hardware_harts],
            lifecycles: vec![Findings::default(); harts],
            emptyings: vec![Findings::default(); harts],
            deliveries: vec![Findings::default(); harts],
            full: Findings::default(),
        }
    }

    /// An accepted setup starts the log anew, and every other request goes last. Before the first accepted setup there is no log.
    pub fn note(log: &mut Option<Self>, request: &Request, number: u64) {
        match *request {
            Request::Setup { harts, hardware_harts, boot, a1, mepc, vsatp, vsstatus } if number == 0 => {
                *log = Some(Self::of_setup(Setup { harts, hardware_harts, boot, a1, mepc, vsatp, vsstatus }));
            }
            _ => log.iter_mut().for_each(|log| log.answered.push((request.clone(), number))),
        }
    }

    /// How many requests were answered since the setup.
    pub fn length(&self) -> usize {
        self.answered.len()
    }

    /// A request if it was accepted.
    fn accepted(&self, at: usize) -> Option<&Request> {
        let (request, number) = &self.answered[at];
        (*number == 0).then_some(request)
    }

    /// What a question finds about the last request that it finds anything about.
    fn last<T>(&self, question: impl Fn(usize) -> Option<T>) -> Option<(usize, T)> {
        (0..self.length()).rev().find_map(|at| question(at).map(|found| (at, found)))
    }
}

/// Places.
impl Log {
    /// On k if the last accepted steal of h named k and no return by k was accepted since; else home.
    fn place_before(&self, before: usize, h: usize) -> Option<usize> {
        let (stolen, k) = self.steals[h].last(before, |at| self.stolen_onto(at, h))?;
        let returned = self.returns[k].last(before, |at| self.is_returned_by(at, k));
        returned.is_none_or(|(returned, ())| returned < stolen).then_some(k)
    }

    /// The hardware hart that an accepted steal of h names.
    fn stolen_onto(&self, at: usize, h: usize) -> Option<usize> {
        match self.accepted(at)? {
            Request::Steal { hart, hardware_hart } if *hart == h => Some(*hardware_hart),
            _ => None,
        }
    }

    /// A return by k was accepted.
    fn is_returned_by(&self, at: usize, k: usize) -> Option<()> {
        (self.accepted(at)? == &Request::Return { hardware_hart: k }).then_some(())
    }

    /// Hart h is the one that hardware hart k holds when a request comes.
    fn is_on(&self, at: usize, h: usize, k: usize) -> bool {
        self.place_before(at, h) == Some(k)
    }
}

/// Queues.
impl Log {
    /// The commands delivered since the last emptying, first copies only.
    fn queue_before(&self, before: usize, h: usize) -> Vec<Command> {
        let emptied = self.emptyings[h].last(before, |at| self.empties(at, h));
        let since = emptied.map_or(0, |(at, ())| at + 1);
        let mut first_copies = Vec::new();
        for command in self.deliveries[h].since(since, before, |at| self.delivers(at, h)) {
            if !first_copies.contains(&command) {
                first_copies.push(command);
            }
        }
        first_copies
    }

    /// An accepted process or resume empties the queue of the hart that its hardware hart holds.
    fn empties(&self, at: usize, h: usize) -> Option<()> {
        match self.accepted(at)? {
            Request::Process { hardware_hart } | Request::Resume { hardware_hart } => self.is_on(at, h, *hardware_hart).then_some(()),
            _ => None,
        }
    }

    /// An accepted broadcast delivers to its receivers; one refused with 8, only to those below the refusing one.
    fn delivers(&self, at: usize, h: usize) -> Option<Command> {
        let command = self.broadcast(at)?;
        let reaches = match self.answered[at].1 {
            0 => true,
            8 => self.first_full(at).is_some_and(|refusing| h < refusing),
            _ => false,
        };
        (reaches && self.is_receiver(at, h)).then_some(command)
    }

    /// The command that a request broadcasts, at table level or at flow level.
    fn broadcast(&self, at: usize) -> Option<Command> {
        match self.answered[at].0 {
            Request::Send { command, .. } | Request::Broadcast { command, .. } => Some(command),
            _ => None,
        }
    }

    /// A selected hart but the sender that is then stolen, Started or Suspended.
    fn is_receiver(&self, at: usize, h: usize) -> bool {
        let is_stolen = || self.place_before(at, h).is_some();
        let is_executable = || matches!(self.lifecycle_before(at, h), STARTED | SUSPENDED);
        self.broadcast(at).is_some_and(|command| is_selected(&command, h)) && !self.is_sender(at, h) && (is_stolen() || is_executable())
    }

    /// At table level the sender is the number given, at flow level the hart that the hardware hart holds.
    fn is_sender(&self, at: usize, h: usize) -> bool {
        match self.answered[at].0 {
            Request::Send { sender, .. } => sender == h,
            Request::Broadcast { hardware_hart, .. } => self.is_on(at, h, hardware_hart),
            _ => false,
        }
    }

    /// The hart that refuses with 8: the first receiver that already has 64.
    fn first_full(&self, at: usize) -> Option<usize> {
        let refuses = |at: usize, h: usize| self.is_receiver(at, h) && self.queue_before(at, h).len() >= MOST_COMMANDS;
        let first = |at: usize| match self.answered[at] {
            (Request::Send { .. } | Request::Broadcast { .. }, 0 | 8) => (0..self.setup.harts).find(|&h| refuses(at, h)),
            _ => None,
        };
        self.full.last(at + 1, first).filter(|(found, _)| *found == at).map(|(_, h)| h)
    }
}

/// Lifecycles and what is done.
impl Log {
    /// Setup's, then that of the last accepted change.
    fn lifecycle_before(&self, before: usize, h: usize) -> usize {
        let at_setup = if h == self.setup.boot { STARTED } else { STOPPED };
        self.lifecycles[h].last(before, |at| self.lifecycle_after_change(at, h)).map_or(at_setup, |(_, lifecycle)| lifecycle)
    }

    /// The new state by the lifecycle table; a done kind 6 counts as off.
    fn lifecycle_after_change(&self, at: usize, h: usize) -> Option<usize> {
        if self.does(at, h).iter().any(|command| command.kind == 6) {
            return Some(POWERED_OFF);
        }
        let (k, lifecycle) = match *self.accepted(at)? {
            Request::Start { hart, .. } => return (hart == h).then_some(STARTED),
            Request::Suspend { hardware_hart } => (hardware_hart, SUSPENDED),
            Request::Stop { hardware_hart } => (hardware_hart, STOPPED),
            Request::Wake { hardware_hart, .. } => (hardware_hart, STARTED),
            Request::Off { hardware_hart } => (hardware_hart, POWERED_OFF),
            _ => return None,
        };
        self.is_on(at, h, k).then_some(lifecycle)
    }

    /// The commands that a request makes a hart do. The sender of a broadcast at flow level does the command if selected, which stands even if 8
    /// follows. An accepted process or resume does every queued command.
    fn does(&self, at: usize, h: usize) -> Vec<Command> {
        match self.answered[at] {
            (Request::Broadcast { hardware_hart, command }, 0 | 8) if is_selected(&command, h) && self.is_on(at, h, hardware_hart) => {
                vec![command]
            }
            (Request::Process { hardware_hart } | Request::Resume { hardware_hart }, 0) if self.is_on(at, h, hardware_hart) => {
                self.queue_before(at, h)
            }
            _ => Vec::new(),
        }
    }
}

/// Registers: setup's, then the last accepted change to each.
impl Log {
    /// The boot hart's is its number and the others' is 0; start sets the hart's number.
    fn a0(&self, h: usize) -> usize {
        if h == self.setup.boot || self.last_start(h).is_some() { h } else { 0 }
    }

    /// Start and wake set opaque.
    fn a1(&self, h: usize) -> usize {
        self.last_start_or_wake(h).map_or_else(|| self.boots_with(h, self.setup.a1), |(_, opaque)| opaque)
    }

    /// Start and wake set address.
    fn mepc(&self, h: usize) -> usize {
        self.last_start_or_wake(h).map_or_else(|| self.boots_with(h, self.setup.mepc), |(address, _)| address)
    }

    /// Start sets 0.
    fn vsatp(&self, h: usize) -> usize {
        if self.last_start(h).is_some() { 0 } else { self.boots_with(h, self.setup.vsatp) }
    }

    /// Start sets bits 5 and 7 to 0.
    fn mstatus(&self, h: usize) -> usize {
        if self.last_start(h).is_some() { MSTATUS & !(1 << 5 | 1 << 7) } else { MSTATUS }
    }

    /// Start sets bit 1 to 0.
    fn vsstatus(&self, h: usize) -> usize {
        let at_setup = self.boots_with(h, self.setup.vsstatus);
        if self.last_start(h).is_some() { at_setup & !(1 << 1) } else { at_setup }
    }

    /// The boot hart has the setup's number, the others 0.
    fn boots_with(&self, h: usize, number: usize) -> usize {
        if h == self.setup.boot { number } else { 0 }
    }

    /// The last accepted start of h.
    fn last_start(&self, h: usize) -> Option<usize> {
        let starts = |at| matches!(self.accepted(at)?, Request::Start { hart, .. } if *hart == h).then_some(());
        self.last(starts).map(|(at, ())| at)
    }

    /// The address and opaque of the last accepted start or wake of h.
    fn last_start_or_wake(&self, h: usize) -> Option<(usize, usize)> {
        let sets = |at| match *self.accepted(at)? {
            Request::Start { hart, address, opaque } if hart == h => Some((address, opaque)),
            Request::Wake { hardware_hart, address, opaque } if self.is_on(at, h, hardware_hart) => Some((address, opaque)),
            _ => None,
        };
        self.last(sets).map(|(_, numbers)| numbers)
    }
}

/// The kind of an operation and its two numbers: those that an accepted await sets.
impl Log {
    fn sets_operation(&self, at: usize, h: usize) -> Option<[usize; 3]> {
        match *self.accepted(at)? {
            Request::Await { hardware_hart, kind, x, y } if self.is_on(at, h, hardware_hart) => Some([kind, x, y]),
            _ => None,
        }
    }

    /// An accepted resume takes the operation, unless its hart is then PoweredOff.
    fn takes_operation(&self, at: usize, h: usize) -> Option<()> {
        match *self.accepted(at)? {
            Request::Resume { hardware_hart } if self.is_on(at, h, hardware_hart) => {
                (self.lifecycle_before(at + 1, h) != POWERED_OFF).then_some(())
            }
            _ => None,
        }
    }
}

/// What each row comes from, after the whole log.
impl Log {
    /// The hardware hart that h is on; none at home.
    pub fn place(&self, h: usize) -> Option<usize> {
        self.place_before(self.length(), h)
    }

    pub fn lifecycle(&self, h: usize) -> usize {
        self.lifecycle_before(self.length(), h)
    }

    /// a0, a1, mepc, vsatp, mstatus, vsstatus.
    pub fn registers(&self, h: usize) -> [usize; 6] {
        [self.a0(h), self.a1(h), self.mepc(h), self.vsatp(h), self.mstatus(h), self.vsstatus(h)]
    }

    /// The last set and not taken.
    pub fn operation(&self, h: usize) -> [usize; 3] {
        let Some((set, operation)) = self.last(|at| self.sets_operation(at, h)) else { return [0; 3] };
        let taken = (set..self.length()).any(|at| self.takes_operation(at, h).is_some());
        if taken { [0; 3] } else { operation }
    }

    pub fn queue(&self, h: usize) -> Vec<Command> {
        self.queue_before(self.length(), h)
    }

    /// Accepted adds with no later accepted remove overlapping them, in the order of adding.
    pub fn regions(&self) -> Vec<[usize; 2]> {
        let accepted = |at| self.accepted(at);
        let adds = (0..self.length()).filter_map(|at| match *accepted(at)? {
            Request::Add { base, size } => Some((at, [base, base + size])),
            _ => None,
        });
        let removes = |at, region| matches!(accepted(at), Some(&Request::Remove { base, size }) if overlap([base, base + size], region));
        adds.filter(|&(added, region)| !(added..self.length()).any(|at| removes(at, region))).map(|(_, region)| region).collect()
    }

    /// All bits ever allowed.
    pub fn allowed(&self) -> usize {
        let bits = (0..self.length()).filter_map(|at| match *self.accepted(at)? {
            Request::Allow { bits } => Some(bits),
            _ => None,
        });
        bits.fold(0, |all, bits| all | bits)
    }
}

/// The words of the tables.
impl Log {
    /// n, m, the allowed mask, and how many regions stand.
    pub fn head(&self) -> [u64; HEAD_WORDS] {
        [self.setup.harts, self.setup.hardware_harts, self.allowed(), self.regions().len()].map(|number| number as u64)
    }

    /// Real hart h, or the dummy of the hardware hart that it is on.
    pub fn home_row(&self, h: usize) -> [u64; HART_WORDS] {
        self.place(h).map_or_else(|| self.real(h), dummy)
    }

    /// The real hart that is on k, or dummy k.
    pub fn hardware_row(&self, k: usize) -> [u64; HART_WORDS] {
        (0..self.setup.harts).find(|&h| self.place(h) == Some(k)).map_or_else(|| dummy(k), |h| self.real(h))
    }

    /// The record of real hart h.
    fn real(&self, h: usize) -> [u64; HART_WORDS] {
        let [kind, x, y] = self.operation(h);
        let [a0, a1, mepc, vsatp, mstatus, vsstatus] = self.registers(h);
        [1, h, self.lifecycle(h), kind, x, y, a0, a1, mepc, vsatp, mstatus, vsstatus].map(|number| number as u64)
    }

    /// How many commands wait for h, the commands, and zeros.
    pub fn queue_row(&self, h: usize) -> Vec<u64> {
        let queue = self.queue(h);
        let commands = queue.iter().flat_map(Command::numbers).map(|number| number as u64);
        padded([queue.len() as u64].into_iter().chain(commands), QUEUE_WORDS)
    }

    /// The regions, and zeros.
    pub fn region_rows(&self) -> Vec<u64> {
        padded(self.regions().into_iter().flatten().map(|number| number as u64), REGION_WORDS * MOST_REGIONS)
    }

    /// The first word of ours that is not what the log says. The tables are those that the requests of the log were answered on.
    pub fn difference(&self, ours: &Tables) -> Option<String> {
        let [harts, hardware_harts] = [self.setup.harts, self.setup.hardware_harts];
        let head = || difference("head", &ours.head[..HEAD_WORDS], &self.head());
        let home = || (0..harts).find_map(|h| difference(format_args!("home row {h}"), ours.home_row(h), &self.home_row(h)));
        let hardware =
            || (0..hardware_harts).find_map(|k| difference(format_args!("hardware row {k}"), ours.hardware_row(k), &self.hardware_row(k)));
        let queues = || (0..harts).find_map(|h| difference(format_args!("queue {h}"), ours.queue(h), &self.queue_row(h)));
        let regions = || difference("regions", &ours.regions[..REGION_WORDS * MOST_REGIONS], &self.region_rows());
        let complaint = head().or_else(home).or_else(hardware).or_else(queues).or_else(regions);
        complaint.map(|complaint| format!("{complaint} by the log")).or_else(|| self.impossible())
    }

    /// A request that cannot have been answered so: 12 never occurs, and 8 is given exactly when a receiver already has 64.
    fn impossible(&self) -> Option<String> {
        let cannot = |at: &usize| match self.answered[*at].1 {
            12 => true,
            8 => self.first_full(*at).is_none(),
            0 => self.first_full(*at).is_some(),
            _ => false,
        };
        let told = |at: usize| {
            let (request, number) = &self.answered[at];
            format!("by the log {} cannot be answered {number}", request.render().replace('\t', " "))
        };
        (0..self.length()).find(cannot).map(told)
    }
}

/// A dummy has its hardware hart's number, is Started, has no operation, and zero registers.
fn dummy(k: usize) -> [u64; HART_WORDS] {
    let mut row = [0; HART_WORDS];
    row[1] = k as u64;
    row
}

/// Words, and zeros up to a number of words.
fn padded(words: impl Iterator<Item = u64>, count: usize) -> Vec<u64> {
    let mut row: Vec<_> = words.collect();
    row.resize(row.len().max(count), 0);
    row
}
