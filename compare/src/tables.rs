//! The tables of one VM, as a caller owns them.
use crate::{HART_WORDS, HEAD_WORDS, MOST_REGIONS, QUEUE_WORDS, REGION_WORDS};
use oudrameng::ConfidentialVm;
use std::fmt::{Display, Formatter};

/// One of a VM's tables.
#[derive(Clone, Copy, PartialEq, Eq, Debug)]
pub enum Table {
    Head,
    Home,
    Hardware,
    Queues,
    Regions,
}

/// How many tables a VM has.
pub const TABLES: usize = 5;

impl Table {
    pub const ALL: [Self; TABLES] = [Self::Head, Self::Home, Self::Hardware, Self::Queues, Self::Regions];
}

impl Display for Table {
    fn fmt(&self, f: &mut Formatter<'_>) -> std::fmt::Result {
        f.write_str(["head", "home", "hardware", "queues", "regions"][*self as usize])
    }
}

/// Five runs of words, of any length: the counts and the allowed mask, the home rows, the hardware rows, the queues and the regions.
#[derive(Clone, PartialEq, Debug)]
pub struct Tables {
    pub head: Vec<u64>,
    pub home: Vec<u64>,
    pub hardware: Vec<u64>,
    pub queues: Vec<u64>,
    pub regions: Vec<u64>,
}

impl Tables {
    /// How many words each table needs for n harts and m hardware harts.
    pub fn needed(n: usize, m: usize) -> [usize; TABLES] {
        [HEAD_WORDS, n * HART_WORDS, m * HART_WORDS, n * QUEUE_WORDS, MOST_REGIONS * REGION_WORDS]
    }

    /// Tables of so many words, each word as it is given.
    pub fn filled(words: [usize; TABLES], mut word: impl FnMut() -> u64) -> Self {
        let [head, home, hardware, queues, regions] = words.map(|count| (0..count).map(|_| word()).collect());
        Self { head, home, hardware, queues, regions }
    }

    pub fn lend(&mut self) -> ConfidentialVm<'_> {
        let Self { head, home, hardware, queues, regions } = self;
        ConfidentialVm { head, home, hardware, queues, regions }
    }

    pub fn runs(&self) -> [&Vec<u64>; TABLES] {
        [&self.head, &self.home, &self.hardware, &self.queues, &self.regions]
    }

    pub fn runs_mut(&mut self) -> [&mut Vec<u64>; TABLES] {
        [&mut self.head, &mut self.home, &mut self.hardware, &mut self.queues, &mut self.regions]
    }

    pub fn run_mut(&mut self, table: Table) -> &mut Vec<u64> {
        self.runs_mut().into_iter().nth(table as usize).expect("there are five")
    }

    /// Makes these tables equal others, without new memory where theirs suffices.
    pub fn copy(&mut self, others: &Self) {
        for (ours, others) in self.runs_mut().into_iter().zip(others.runs()) {
            ours.clone_from(others);
        }
    }

    /// How many harts and hardware harts sound tables have.
    pub fn sizes(&self) -> (usize, usize) {
        (self.head[0] as usize, self.head[1] as usize)
    }

    /// A home row, a hardware row, a queue.
    pub fn home_row(&self, h: usize) -> &[u64] {
        &self.home[h * HART_WORDS..][..HART_WORDS]
    }

    pub fn hardware_row(&self, k: usize) -> &[u64] {
        &self.hardware[k * HART_WORDS..][..HART_WORDS]
    }

    pub fn queue(&self, h: usize) -> &[u64] {
        &self.queues[h * QUEUE_WORDS..][..QUEUE_WORDS]
    }

    /// The first word in which these tables differ from what they should be.
    pub fn difference(&self, expected: &Self) -> Option<String> {
        let runs = self.runs().into_iter().zip(expected.runs());
        Table::ALL.into_iter().zip(runs).find_map(|(table, (ours, expected))| difference(table, ours, expected))
    }
}

/// The first word of ours that is not as it should be.
pub fn difference(name: impl Display, ours: &[u64], expected: &[u64]) -> Option<String> {
    if ours == expected {
        return None;
    }
    Some(match ours.iter().zip(expected).position(|(word, other)| word != other) {
        Some(at) => format!("word {at} of {name} is {} in ours and should be {}", ours[at], expected[at]),
        None => format!("{name} has {} words in ours and should have {}", ours.len(), expected.len()),
    })
}
