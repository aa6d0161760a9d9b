//! A request and its line: a word and numbers, parted by tabs.
use crate::driver::Command;

#[derive(Clone, PartialEq, Debug)]
pub enum Request {
    Setup { harts: usize, hardware_harts: usize, boot: usize, a1: usize, mepc: usize, vsatp: usize, vsstatus: usize },
    Steal { hart: usize, hardware_hart: usize },
    Return { hardware_hart: usize },
    Start { hart: usize, address: usize, opaque: usize },
    Suspend { hardware_hart: usize },
    Stop { hardware_hart: usize },
    Wake { hardware_hart: usize, address: usize, opaque: usize },
    Off { hardware_hart: usize },
    Status { hart: usize },
    Await { hardware_hart: usize, kind: usize, x: usize, y: usize },
    Process { hardware_hart: usize },
    Resume { hardware_hart: usize },
    Broadcast { hardware_hart: usize, command: Command },
    Send { sender: usize, command: Command },
    Allow { bits: usize },
    Add { base: usize, size: usize },
    Remove { base: usize, size: usize },
    Defined { base: usize, size: usize },
    Home,
}

/// The most numbers that a line has.
const MOST_NUMBERS: usize = 7;

impl Request {
    /// The request of a line (without its line end), or nothing where the line is in no form.
    pub fn parse(line: &[u8]) -> Option<Self> {
        let mut fields = line.split(|byte| *byte == b'\t');
        let word = fields.next()?;
        let (mut numbers, mut count) = ([0; MOST_NUMBERS], 0);
        for field in fields {
            *numbers.get_mut(count)? = number(field)?;
            count += 1;
        }
        Some(match (word, &numbers[..count]) {
            (b"setup", &[harts, hardware_harts, boot, a1, mepc, vsatp, vsstatus]) => {
                Self::Setup { harts, hardware_harts, boot, a1, mepc, vsatp, vsstatus }
            }
            (b"steal", &[hart, hardware_hart]) => Self::Steal { hart, hardware_hart },
            (b"return", &[hardware_hart]) => Self::Return { hardware_hart },
            (b"start", &[hart, address, opaque]) => Self::Start { hart, address, opaque },
            (b"suspend", &[hardware_hart]) => Self::Suspend { hardware_hart },
            (b"stop", &[hardware_hart]) => Self::Stop { hardware_hart },
            (b"wake", &[hardware_hart, address, opaque]) => Self::Wake { hardware_hart, address, opaque },
            (b"off", &[hardware_hart]) => Self::Off { hardware_hart },
            (b"status", &[hart]) => Self::Status { hart },
            (b"await", &[hardware_hart, kind, x, y]) => Self::Await { hardware_hart, kind, x, y },
            (b"process", &[hardware_hart]) => Self::Process { hardware_hart },
            (b"resume", &[hardware_hart]) => Self::Resume { hardware_hart },
            (b"broadcast", &[hardware_hart, ref command @ ..]) => {
                Self::Broadcast { hardware_hart, command: Command::of_numbers(command.try_into().ok()?) }
            }
            (b"send", &[sender, ref command @ ..]) => Self::Send { sender, command: Command::of_numbers(command.try_into().ok()?) },
            (b"allow", &[bits]) => Self::Allow { bits },
            (b"add", &[base, size]) => Self::Add { base, size },
            (b"remove", &[base, size]) => Self::Remove { base, size },
            (b"defined", &[base, size]) => Self::Defined { base, size },
            (b"home", &[]) => Self::Home,
            _ => return None,
        })
    }

    /// The line of a request, without its line end.
    pub fn render(&self) -> String {
        let line = |word: &str, numbers: &[usize]| numbers.iter().fold(word.to_string(), |line, n| format!("{line}\t{n}"));
        match *self {
            Self::Setup { harts, hardware_harts, boot, a1, mepc, vsatp, vsstatus } => {
                line("setup", &[harts, hardware_harts, boot, a1, mepc, vsatp, vsstatus])
            }
            Self::Steal { hart, hardware_hart } => line("steal", &[hart, hardware_hart]),
            Self::Return { hardware_hart } => line("return", &[hardware_hart]),
            Self::Start { hart, address, opaque } => line("start", &[hart, address, opaque]),
            Self::Suspend { hardware_hart } => line("suspend", &[hardware_hart]),
            Self::Stop { hardware_hart } => line("stop", &[hardware_hart]),
            Self::Wake { hardware_hart, address, opaque } => line("wake", &[hardware_hart, address, opaque]),
            Self::Off { hardware_hart } => line("off", &[hardware_hart]),
            Self::Status { hart } => line("status", &[hart]),
            Self::Await { hardware_hart, kind, x, y } => line("await", &[hardware_hart, kind, x, y]),
            Self::Process { hardware_hart } => line("process", &[hardware_hart]),
            Self::Resume { hardware_hart } => line("resume", &[hardware_hart]),
            Self::Broadcast { hardware_hart, command } => line("broadcast", &[&[hardware_hart], &command.numbers()[..]].concat()),
            Self::Send { sender, command } => line("send", &[&[sender], &command.numbers()[..]].concat()),
            Self::Allow { bits } => line("allow", &[bits]),
            Self::Add { base, size } => line("add", &[base, size]),
            Self::Remove { base, size } => line("remove", &[base, size]),
            Self::Defined { base, size } => line("defined", &[base, size]),
            Self::Home => line("home", &[]),
        }
    }
}

/// A plain decimal up to 2^64 - 1 without leading zeros.
fn number(field: &[u8]) -> Option<usize> {
    match field {
        [] | [b'0', _, ..] => None,
        digits => digits.iter().try_fold(0usize, |value, digit| match digit {
            b'0'..=b'9' => value.checked_mul(10)?.checked_add((digit - b'0') as usize),
            _ => None,
        }),
    }
}
