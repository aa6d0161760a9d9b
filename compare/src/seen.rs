//! How many requests were compared: of each kind, with each number.
use oracle::driver::Request;
use std::fmt::{Display, Formatter};

/// The kinds of requests by their words in a trace, and the numbers that each can be given. The last kind is for lines in no form. 13 for want of
/// room for values is the C functions' own.
pub const KINDS: [(&str, &[usize]); 20] = [
    ("setup", &[0, 13, 18]),
    ("steal", &[0, 1, 2, 3, 12, 13, 14, 15]),
    ("return", &[0, 12, 14, 16]),
    ("start", &[0, 1, 2, 4, 12]),
    ("suspend", &[0, 5, 12, 14, 16]),
    ("stop", &[0, 6, 12, 14, 16]),
    ("wake", &[0, 7, 12, 14, 16]),
    ("off", &[0, 12, 14, 16]),
    ("status", &[0, 1, 12, 13]),
    ("await", &[0, 12, 14, 16, 17, 19]),
    ("process", &[0, 12, 13, 14, 16]),
    ("resume", &[0, 12, 13, 14, 16]),
    ("broadcast", &[0, 8, 12, 13, 14, 16, 19]),
    ("send", &[0, 8, 12, 13, 19]),
    ("allow", &[0, 12]),
    ("add", &[0, 9, 10, 11, 12]),
    ("remove", &[0, 11, 12]),
    ("defined", &[0, 11, 12, 13]),
    ("home", &[0, 12, 13]),
    ("bad line", &[20]),
];
pub const BAD_LINE: usize = 19;
const NUMBERS: usize = 21;

/// The place of a request's kind.
pub fn kind(request: &Request) -> usize {
    match request {
        Request::Setup { .. } => 0,
        Request::Steal { .. } => 1,
        Request::Return { .. } => 2,
        Request::Start { .. } => 3,
        Request::Suspend { .. } => 4,
        Request::Stop { .. } => 5,
        Request::Wake { .. } => 6,
        Request::Off { .. } => 7,
        Request::Status { .. } => 8,
        Request::Await { .. } => 9,
        Request::Process { .. } => 10,
        Request::Resume { .. } => 11,
        Request::Broadcast { .. } => 12,
        Request::Send { .. } => 13,
        Request::Allow { .. } => 14,
        Request::Add { .. } => 15,
        Request::Remove { .. } => 16,
        Request::Defined { .. } => 17,
        Request::Home => 18,
    }
}

/// How often each kind of request was given each number, and how many of these the original Rust panicked at.
#[derive(Clone, PartialEq, Debug)]
pub struct Seen {
    answers: [[u64; NUMBERS]; 20],
    panics: [u64; NUMBERS],
}

impl Default for Seen {
    fn default() -> Self {
        Self { answers: [[0; NUMBERS]; 20], panics: [0; NUMBERS] }
    }
}

impl Seen {
    pub fn count(&mut self, kind: usize, number: u64, panicked: bool) {
        self.answers[kind][number as usize] += 1;
        self.panics[number as usize] += panicked as u64;
    }

    pub fn add(&mut self, other: &Self) {
        let all = |seen: &Self| seen.answers.into_iter().flatten().chain(seen.panics).collect::<Vec<_>>();
        let others = all(other);
        let ours = self.answers.iter_mut().flatten().chain(&mut self.panics);
        ours.zip(others).for_each(|(ours, other)| *ours += other);
    }

    pub fn total(&self) -> u64 {
        self.answers.iter().flatten().sum()
    }

    /// What document 01 lets happen and was not seen, or was seen and cannot happen.
    pub fn gaps(&self) -> Vec<String> {
        let mut gaps = Vec::new();
        for ((name, possible), answers) in KINDS.iter().zip(&self.answers) {
            for (number, &times) in answers.iter().enumerate() {
                match (possible.contains(&number), times) {
                    (true, 0) => gaps.push(format!("{name} was never answered {number}")),
                    (false, 1..) => gaps.push(format!("{name} was answered {number}, which it cannot be, {times} times")),
                    _ => {}
                }
            }
        }
        gaps
    }
}

/// A number with its thousands parted.
pub fn parted(number: u64) -> String {
    let digits = number.to_string();
    let groups = digits.as_bytes().rchunks(3).rev().map(|group| std::str::from_utf8(group).expect("digits"));
    groups.collect::<Vec<_>>().join(",")
}

/// The table of requests and numbers, as Markdown.
impl Display for Seen {
    fn fmt(&self, f: &mut Formatter<'_>) -> std::fmt::Result {
        let row = |numbers: &[u64; NUMBERS]| {
            let seen = numbers.iter().enumerate().filter(|(_, times)| **times != 0);
            seen.map(|(number, times)| format!("{number}: {}", parted(*times))).collect::<Vec<_>>().join(", ")
        };
        writeln!(f, "| request | compared | each number, how often |\n|---|---|---|")?;
        for ((name, _), numbers) in KINDS.iter().zip(&self.answers) {
            writeln!(f, "| {name} | {} | {} |", parted(numbers.iter().sum()), row(numbers))?;
        }
        let by_number = std::array::from_fn(|number| self.answers.iter().map(|numbers| numbers[number]).sum());
        writeln!(f, "| all | {} | {} |", parted(self.total()), row(&by_number))?;
        write!(f, "| the Rust panicked | {} | {} |", parted(self.panics.iter().sum()), row(&self.panics))
    }
}
