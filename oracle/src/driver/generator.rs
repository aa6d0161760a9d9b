//! Makes traces: mostly moves that the tables allow, with full queues, repeated commands, edges of selection and of regions, requests at
//! random and bad lines among them. The same seed makes the same trace.
use crate::core::architecture::HartLifecycleState;
use crate::driver::{Answer, Command, Machine, Random, Request};
use std::collections::VecDeque;

const MAX: usize = usize::MAX;
const MOST_COMMANDS: usize = 64;

/// Numbers at which something changes.
const EDGES: [usize; 15] = [0, 1, 2, 7, 8, 9, 63, 64, 4096, 1 << 32, (1 << 32) + 1, 1 << 63, MAX - 64, MAX - 1, MAX];

pub struct Generator {
    random: Random,
    machine: Machine,
    harts: usize,
    planned: VecDeque<Vec<u8>>,
    /// Commands sent lately, some of which are sent again.
    recent: Vec<Command>,
}

impl Generator {
    pub fn new(seed: u64) -> Self {
        let mut generator =
            Self { random: Random::new(seed), machine: Machine::new(), harts: 0, planned: VecDeque::new(), recent: Vec::new() };
        generator.plan(Request::Home);
        generator.bad_line();
        generator.plan(Request::Steal { hart: 0, hardware_hart: 0 });
        generator
    }

    /// The next line of the trace, without its line end.
    pub fn line(&mut self) -> Vec<u8> {
        if self.planned.is_empty() {
            self.choose();
        }
        let line = self.planned.pop_front().expect("a line was planned");
        let answer = self.machine.line(&line).answer;
        if let (Answer::Done, Some(Request::Setup { harts, .. })) = (answer, Request::parse(&line)) {
            self.harts = harts;
            self.recent.clear();
        }
        line
    }

    fn plan(&mut self, request: Request) {
        self.planned.push_back(request.render().into_bytes());
    }

    fn choose(&mut self) {
        if self.harts == 0 || self.random.one_in(700) || (self.is_dead() && self.random.one_in(12)) {
            return self.setup();
        }
        match self.random.below(400) {
            0 => self.fill_a_queue(),
            1 => self.meet_a_full_queue(),
            2..=29 => self.regions(),
            30..=51 => self.bad_line(),
            52..=131 => self.any_request(),
            _ => self.allowed_request(),
        }
    }

    fn number(&mut self) -> usize {
        match self.random.below(4) {
            0 => self.random.next(),
            1 => self.random.of(&EDGES),
            _ => self.random.below(10_000),
        }
    }

    /// Whether all harts are powered off, so that little is allowed any more.
    fn is_dead(&self) -> bool {
        (0..self.harts).all(|hart| self.lifecycle(hart) == HartLifecycleState::PoweredOff)
    }

    fn lifecycle(&self, hart: usize) -> HartLifecycleState {
        match self.holder(hart) {
            Some(hardware_hart) => self.machine.on(hardware_hart).lifecycle_state().clone(),
            None => self.machine.state(hart).expect("there is such a hart"),
        }
    }

    /// The hardware hart that a hart is on.
    fn holder(&self, hart: usize) -> Option<usize> {
        (0..self.machine.hardware_harts()).find(|k| !self.machine.on(*k).is_dummy() && self.machine.on(*k).confidential_hart_id() == hart)
    }

    fn queue_len(&self, hart: usize) -> usize {
        self.machine.queue(hart).map_or(0, |queue| queue.len())
    }
}

/// Setups, good and bad.
impl Generator {
    fn setup(&mut self) {
        if self.random.one_in(3) {
            let (harts, hardware_harts, boot) = self.random.of(&[
                (0, 1, 0),
                (1, 0, 0),
                (2, 2, 2),
                (1025, 1, 0),
                (1, 65, 0),
                (1024, 64, 1023),
                (9, 4, 0),
                (8, 5, 7),
                (9, 4, 9),
                ((1 << 32) + 1, 1, 0),
                (1, (1 << 32) + 1, 0),
                (8, 4, 1 << 32),
                (MAX, MAX, MAX),
            ]);
            return self.setup_of(harts, hardware_harts, boot);
        }
        let harts = self.random.of(&[1, 2, 3, 4, 5, 6, 7, 8, 8, 8]);
        let hardware_harts = self.random.of(&[1, 2, 3, 4, 4]);
        let boot = self.random.below(harts);
        self.setup_of(harts, hardware_harts, boot);
    }

    fn setup_of(&mut self, harts: usize, hardware_harts: usize, boot: usize) {
        let (a1, mepc, vsatp, vsstatus) = (self.number(), self.number(), self.number(), self.number());
        self.plan(Request::Setup { harts, hardware_harts, boot, a1, mepc, vsatp, vsstatus });
    }
}

/// Requests one by one.
impl Generator {
    /// One of the requests that the tables as they stand accept, each move as likely as another.
    fn allowed_request(&mut self) {
        let mut allowed = Vec::new();
        for hardware_hart in 0..self.machine.hardware_harts() {
            let held = self.machine.on(hardware_hart).clone();
            if held.is_dummy() {
                for hart in (0..self.harts).filter(|h| self.holder(*h).is_none()) {
                    if matches!(self.lifecycle(hart), HartLifecycleState::Started | HartLifecycleState::Suspended) {
                        allowed.push(Request::Steal { hart, hardware_hart });
                    }
                }
                continue;
            }
            let (address, opaque) = (self.number(), self.number());
            let (x, y) = (self.number(), self.number());
            let command = self.command();
            allowed.push(Request::Return { hardware_hart });
            allowed.push(Request::Process { hardware_hart });
            allowed.push(Request::Resume { hardware_hart });
            allowed.push(Request::Broadcast { hardware_hart, command });
            allowed.push(Request::Broadcast { hardware_hart, command });
            if held.clone().take_resumable_operation().is_none() {
                allowed.push(Request::Await { hardware_hart, kind: 1 + self.random.below(5), x, y });
            }
            match held.lifecycle_state() {
                HartLifecycleState::Started => allowed.push(Request::Suspend { hardware_hart }),
                HartLifecycleState::Suspended => allowed.push(Request::Wake { hardware_hart, address, opaque }),
                _ => {}
            }
            if *held.lifecycle_state() == HartLifecycleState::Started && self.random.one_in(3) {
                allowed.push(Request::Stop { hardware_hart });
            }
            if self.random.one_in(12) {
                allowed.push(Request::Off { hardware_hart });
            }
        }
        for hart in 0..self.harts {
            if self.holder(hart).is_none() && self.lifecycle(hart) == HartLifecycleState::Stopped {
                allowed.push(Request::Start { hart, address: self.number(), opaque: self.number() });
            }
        }
        allowed.push(Request::Status { hart: self.random.below(self.harts) });
        let (sender, command) = (self.sender(), self.command());
        allowed.push(Request::Send { sender, command });
        if self.random.one_in(3) {
            let bits = 1 << self.random.below(64);
            allowed.push(Request::Allow { bits });
            allowed.push(Request::Home);
        }
        let request = self.random.of(&allowed);
        self.plan(request);
    }

    /// A request with numbers around their limits, whatever the tables say to it.
    fn any_request(&mut self) {
        let hart = self.below_or_beyond(self.harts);
        let hardware_hart = self.below_or_beyond(self.machine.hardware_harts());
        let (address, opaque, x, y) = (self.number(), self.number(), self.number(), self.number());
        let mut command = self.command();
        if self.random.one_in(4) {
            let place = self.random.below(6);
            let mut numbers = command.numbers();
            numbers[place] = self.random.of(&EDGES);
            command = Command::of_numbers(&numbers);
        }
        let request = match self.random.below(16) {
            0 | 1 => Request::Steal { hart, hardware_hart },
            2 => Request::Return { hardware_hart },
            3 | 4 => Request::Start { hart, address, opaque },
            5 => Request::Suspend { hardware_hart },
            6 => Request::Stop { hardware_hart },
            7 => Request::Wake { hardware_hart, address, opaque },
            8 if self.random.one_in(8) => Request::Off { hardware_hart },
            8 | 9 => Request::Await { hardware_hart, kind: self.random.of(&[0, 1, 2, 3, 4, 5, 6, (1 << 32) + 1, MAX]), x, y },
            10 => Request::Process { hardware_hart },
            11 => Request::Resume { hardware_hart },
            12 | 13 => Request::Broadcast { hardware_hart, command },
            14 => Request::Send { sender: self.random.of(&[hart, hart % 8 + (1 << 32), MAX]), command },
            _ => Request::Status { hart },
        };
        self.plan(request);
    }

    /// A number below n, now and then n itself or one far beyond.
    fn below_or_beyond(&mut self, n: usize) -> usize {
        if self.random.one_in(8) { self.random.of(&[n, n + 1, 64, 1024, 1 << 32, MAX]) } else { self.random.below(n) }
    }

    fn sender(&mut self) -> usize {
        match self.random.below(4) {
            0 => self.random.of(&[8, 1024, MAX]),
            _ => self.random.below(self.harts),
        }
    }

    /// A well-formed command, often one that was sent before.
    fn command(&mut self) -> Command {
        if !self.recent.is_empty() && self.random.one_in(3) {
            return self.random.of(&self.recent.clone());
        }
        let command = if self.random.one_in(90) {
            Command { kind: 6, ..Command::default() }
        } else {
            let (mask, base) = self.selection();
            let kind = 1 + self.random.below(5);
            let (start, size, tag) = (self.number(), self.number(), self.random.below(3));
            Command {
                kind,
                mask,
                base,
                start: if kind >= 3 { start } else { 0 },
                size: if kind >= 3 { size } else { 0 },
                tag: if kind >= 4 { tag } else { 0 },
            }
        };
        if self.recent.len() >= 6 {
            self.recent.remove(0);
        }
        self.recent.push(command);
        command
    }

    /// A hart mask and its base: some harts, all, none, and the edges.
    fn selection(&mut self) -> (usize, usize) {
        let some = self.random.below(1 << self.harts);
        match self.random.below(16) {
            0 => (self.number(), MAX),
            1 => (1, 63),
            2 => (1 << 63, 1),
            3 => (1 << 63, 0),
            4 => (MAX, MAX - 1),
            5 => (MAX, self.harts),
            6 => (MAX, self.harts - 1),
            7 => (self.random.next(), self.random.below(8)),
            8 => (0, 0),
            9 => (MAX, 0),
            _ => (some, 0),
        }
    }
}

/// Queues at 63, 64 and beyond.
impl Generator {
    /// A hart that a broadcast reaches, where there is one.
    fn reachable_hart(&mut self) -> Option<usize> {
        let reachable: Vec<usize> = (0..self.harts)
            .filter(|h| {
                self.holder(*h).is_some() || matches!(self.lifecycle(*h), HartLifecycleState::Started | HartLifecycleState::Suspended)
            })
            .collect();
        if reachable.is_empty() { None } else { Some(self.random.of(&reachable)) }
    }

    /// Plans commands to one hart, no two of them equal, until its queue has `length` of them; gives the last one.
    fn fill_to(&mut self, hart: usize, length: usize) -> Command {
        let tag = self.random.next();
        let command = |place: usize| Command { kind: 5, mask: 1 << hart, base: 0, start: place * 4096, size: 4096, tag };
        for place in self.queue_len(hart)..length {
            self.plan(Request::Send { sender: MAX, command: command(place) });
        }
        command(length.max(1) - 1)
    }

    /// To 63, the last one again, to 64, the last one again, a new one, and then the hart does them or still has them.
    fn fill_a_queue(&mut self) {
        let Some(hart) = self.reachable_hart() else { return self.setup() };
        let sender = MAX;
        let last = self.fill_to(hart, MOST_COMMANDS - 1);
        let more = Command { size: 1, ..last };
        let beyond = Command { size: 2, ..last };
        for command in [last, more, more, last, beyond] {
            self.plan(Request::Send { sender, command });
        }
        if let Some(hardware_hart) = self.holder(hart) {
            let request =
                self.random.of(&[Request::Process { hardware_hart }, Request::Resume { hardware_hart }, Request::Return { hardware_hart }]);
            self.plan(request);
            self.plan(Request::Send { sender, command: beyond });
        }
    }

    /// One full queue among several receivers: those before it keep the command, those after it do not get it.
    fn meet_a_full_queue(&mut self) {
        let Some(hart) = self.reachable_hart() else { return self.setup() };
        let last = self.fill_to(hart, MOST_COMMANDS);
        let everyone = Command { mask: 0, base: MAX, ..last };
        let others = Command { mask: !(1 << hart), base: 0, ..last };
        match (0..self.machine.hardware_harts()).find(|k| !self.machine.on(*k).is_dummy()) {
            Some(hardware_hart) => self.plan(Request::Broadcast { hardware_hart, command: everyone }),
            None => self.plan(Request::Send { sender: MAX, command: everyone }),
        }
        self.plan(Request::Send { sender: hart, command: everyone });
        self.plan(Request::Send { sender: MAX, command: others });
        for hardware_hart in 0..self.machine.hardware_harts() {
            if !self.machine.on(hardware_hart).is_dummy() {
                self.plan(Request::Process { hardware_hart });
            }
        }
    }
}

/// Regions: touching, empty, huge, inside each other.
impl Generator {
    fn regions(&mut self) {
        const PAGE: usize = 4096;
        let page = self.random.below(24) * PAGE;
        let (base, size) = self.random.of(&[
            (page, PAGE),
            (page + PAGE, PAGE),
            (page, 2 * PAGE),
            (page, 0),
            (page + 904, 0),
            (page + 1, PAGE),
            (page, 1),
            (0, MAX),
            (0, 0),
            (MAX, 0),
            (MAX, 1),
            (MAX - page, page),
            (1 << 63, 1 << 63),
            (1 << 63, (1 << 63) - 1),
            (MAX, MAX),
        ]);
        let request = match self.random.below(8) {
            0..=3 => Request::Add { base, size },
            4 => Request::Remove { base, size },
            _ => Request::Defined { base, size },
        };
        self.plan(request);
    }
}

/// Lines in no form.
impl Generator {
    fn bad_line(&mut self) {
        const FORMS: [&str; 19] = [
            "setup\t2\t2\t0\t0\t0\t0\t0",
            "steal\t0\t0",
            "return\t1",
            "start\t1\t0\t0",
            "suspend\t0",
            "stop\t0",
            "wake\t0\t0\t0",
            "off\t0",
            "status\t1",
            "await\t0\t1\t2\t3",
            "process\t0",
            "resume\t0",
            "broadcast\t0\t1\t3\t0\t0\t0\t0",
            "send\t0\t1\t3\t0\t0\t0\t0",
            "allow\t4",
            "add\t4096\t4096",
            "remove\t4096\t4096",
            "defined\t4096\t4096",
            "home",
        ];
        let form = self.random.of(&FORMS);
        let mut fields: Vec<Vec<u8>> = form.split('\t').map(|field| field.as_bytes().to_vec()).collect();
        let (last, place) = (fields.len() - 1, self.random.below(fields.len()));
        // The word or a number of the line, and what becomes of it.
        match self.random.below(21) {
            0 => fields.clear(),
            1 => fields.push(b"0".to_vec()),
            2 => drop(fields.pop()),
            3 => fields[place].clear(),
            4 => fields[last] = b"00".to_vec(),
            5 => fields[last].insert(0, b'0'),
            6 => fields[last] = b"18446744073709551616".to_vec(),
            7 => fields[last] = b"99999999999999999999999999".to_vec(),
            8 => fields[last].insert(0, b'+'),
            9 => fields[last].insert(0, b'-'),
            10 => fields[last] = b"0x1".to_vec(),
            11 => fields[last].push(b'\r'),
            12 => fields[place].push(b' '),
            13 => fields[place].insert(0, b' '),
            14 => fields[place].push(0),
            15 => fields[place].push(0xff),
            16 => fields[0].make_ascii_uppercase(),
            17 => drop(fields[0].pop()),
            18 => fields = vec![fields.join(&b' ')],
            19 => fields.push(Vec::new()),
            _ => {
                let length = self.random.of(&[21, 200, 6000]);
                fields[last].resize(length, b'7');
            }
        }
        // Now and then a change leaves a line in form; that is a request as good as any other.
        self.planned.push_back(fields.join(&b'\t'));
    }
}
