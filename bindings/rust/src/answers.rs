//! What requests give: document 01's numbers as Rust's results.
use crate::ResumableOperation;

/// Why a request was refused, with document 01's number.
#[derive(Clone, Copy, PartialEq, Eq, Debug)]
pub enum Error {
    InvalidHartId = 1,
    HartAlreadyRunning = 2,
    HartNotExecutable = 3,
    CannotStartNotStoppedHart = 4,
    CannotSuspedNotStartedHart = 5,
    CannotStopNotStartedHart = 6,
    CannotStartNotSuspendedHart = 7,
    ReachedMaxNumberOfRemoteCommands = 8,
    ReachedMaxNumberOfMmioRegions = 9,
    OverlappingMmioRegion = 10,
    EndTooLarge = 11,
    TablesNotSound = 12,
    RoomTooShort = 13,
    NoSuchHardwareHart = 14,
    HardwareHartBusy = 15,
    HardwareHartIdle = 16,
    OperationPending = 17,
    SetupOutOfRange = 18,
    UnknownKind = 19,
}

impl Error {
    /// Each at the place before its number.
    const ALL: [Self; 19] = [
        Self::InvalidHartId,
        Self::HartAlreadyRunning,
        Self::HartNotExecutable,
        Self::CannotStartNotStoppedHart,
        Self::CannotSuspedNotStartedHart,
        Self::CannotStopNotStartedHart,
        Self::CannotStartNotSuspendedHart,
        Self::ReachedMaxNumberOfRemoteCommands,
        Self::ReachedMaxNumberOfMmioRegions,
        Self::OverlappingMmioRegion,
        Self::EndTooLarge,
        Self::TablesNotSound,
        Self::RoomTooShort,
        Self::NoSuchHardwareHart,
        Self::HardwareHartBusy,
        Self::HardwareHartIdle,
        Self::OperationPending,
        Self::SetupOutOfRange,
        Self::UnknownKind,
    ];

    pub fn number(self) -> u64 {
        self as u64
    }
}

/// Nothing for 0, and the error of any other number. The proved functions give no number past 19.
pub(crate) fn done(number: u64) -> Result<(), Error> {
    match number {
        0 => Ok(()),
        refusal => Err(Error::ALL[refusal as usize - 1]),
    }
}

/// The lifecycle of a hart.
#[derive(Clone, Copy, PartialEq, Eq, Debug)]
pub enum HartLifecycleState {
    Started = 0,
    Stopped = 1,
    Suspended = 2,
    PoweredOff = 3,
}

impl HartLifecycleState {
    /// The proved functions give no number past 3.
    pub(crate) fn of_number(number: u64) -> Self {
        [Self::Started, Self::Stopped, Self::Suspended, Self::PoweredOff][number as usize]
    }
}

/// How a hart goes on after its commands.
#[derive(Clone, Copy, PartialEq, Eq, Debug)]
pub enum Resumed {
    Run,
    Off,
    Operation(ResumableOperation),
}

impl Resumed {
    /// The proved functions give no first number past 2.
    pub(crate) fn of_values([way, kind, x, y]: [u64; 4]) -> Self {
        match way {
            0 => Self::Run,
            1 => Self::Off,
            _ => Self::Operation(ResumableOperation { kind, x, y }),
        }
    }
}

/// An answer, and how many effect records were written before it. What a sender did stands also where its broadcast is refused for a full
/// queue, so the records are looked at before the answer.
#[must_use]
#[derive(Clone, Copy, PartialEq, Eq, Debug)]
pub struct Reply<T> {
    pub did: usize,
    pub answer: Result<T, Error>,
}
