//! The original Rust and our tables side by side: the same steps go to both, and after each everything that they give and hold is compared.
use crate::document_01::{are_sound, number};
use crate::entries::{Entry, records_asked, value_words_asked};
use crate::log::{Log, Note};
use crate::original::{read_words, write_words};
use crate::seen::{Seen, kind};
use crate::tables::{Table, Tables, difference};
use crate::{EFFECT_WORDS, REPLY_VALUE_WORDS};
use oracle::driver::{self, Answer, Command, Machine, Request};
use oracle::effects::Effect;
use std::cell::Cell;
use std::fmt::{Display, Formatter};

/// Room for 64 effect records, and a few words more that nobody may write.
pub const ROOM: usize = 64 * EFFECT_WORDS + 3;
/// The most words that are lent for values: one more than are asked.
pub const MOST_VALUE_WORDS: usize = REPLY_VALUE_WORDS + 1;

/// A request, and how many words are lent for its effects and its values.
#[derive(Clone, PartialEq, Debug)]
pub struct Ask {
    pub request: Request,
    pub effects_words: usize,
    pub value_words: usize,
}

impl From<Request> for Ask {
    /// With room for all that it may write, and a few words more.
    fn from(request: Request) -> Self {
        Self { request, effects_words: ROOM, value_words: MOST_VALUE_WORDS }
    }
}

/// What happens to both.
#[derive(Clone, PartialEq, Debug)]
pub enum Step {
    Ask(Ask),
    /// Words of a table become others, as far as the table goes. Tables that are sound afterwards are the original's too, whether or not
    /// requests lead there.
    Replace {
        table: Table,
        place: usize,
        words: Vec<u64>,
    },
    /// A table is lent with fewer words, or with more.
    Resize {
        table: Table,
        words: usize,
    },
}

impl From<Request> for Step {
    fn from(request: Request) -> Self {
        Self::Ask(request.into())
    }
}

impl Display for Step {
    fn fmt(&self, f: &mut Formatter<'_>) -> std::fmt::Result {
        match self {
            Self::Ask(Ask { request, effects_words, value_words }) => {
                write!(f, "{}", request.render().replace('\t', " "))?;
                if *effects_words < EFFECT_WORDS * records_asked(request) {
                    write!(f, " (with {effects_words} words for effects)")?;
                }
                if *value_words < value_words_asked(request) {
                    write!(f, " (with {value_words} words for values)")?;
                }
                Ok(())
            }
            Self::Replace { table, place, words } => write!(f, "(from word {place} of {table} on stands {words:?})"),
            Self::Resize { table, words } => write!(f, "({table} is lent with {words} words)"),
        }
    }
}

/// What a request gives: its number, the effect records and the values of its answer.
#[derive(Clone, PartialEq, Debug)]
pub struct Given {
    pub number: u64,
    pub did: Vec<[u64; EFFECT_WORDS]>,
    pub values: Vec<u64>,
}

impl Given {
    pub fn refused(number: u64) -> Self {
        Self { number, did: Vec::new(), values: Vec::new() }
    }

    /// What the words lent for values become: the values over their front, and before these how many records were written where the request does
    /// commands. Words too few for any answer stay.
    fn write_values(&self, request: &Request, value: &mut [u64]) {
        let did = (records_asked(request) != 0).then_some(self.did.len() as u64);
        if value.len() >= value_words_asked(request) {
            value.iter_mut().zip(did.iter().chain(&self.values)).for_each(|(word, given)| *word = *given);
        }
    }

    /// What the room for effects becomes: the records over its front.
    fn write_effects(&self, room: &mut [u64]) {
        for (place, record) in room.chunks_mut(EFFECT_WORDS).zip(&self.did) {
            place.copy_from_slice(record);
        }
    }
}

thread_local! {
    /// How many pairs a thread has made.
    static MADE: Cell<u64> = const { Cell::new(0) };
}

/// The original Rust and our tables, which hold the same. The original has one VM a thread: only the newest pair of a thread may be asked.
pub struct Pair {
    made: u64,
    seen: Seen,
    machine: Machine,
    entry: Entry,
    /// Our tables, and what they should be.
    ours: Tables,
    expected: Tables,
    /// Whether the tables are sound: then the machine holds what they say.
    is_sound: bool,
    /// Our room for effects, and what should stand there.
    effects: [Vec<u64>; 2],
    /// Who notes requests in a log, where one is kept, and after how many the rows are worked out from it.
    noted: Option<(Note, usize)>,
    /// The log since the last accepted setup.
    log: Option<Log>,
}

/// Both at one time, to go back to.
#[derive(Clone)]
pub struct Moment {
    machine: driver::Tables,
    tables: Tables,
    is_sound: bool,
    log: Option<Log>,
}

impl Pair {
    /// Tables as they are lent at the start, and what answers for ours.
    pub fn new(tables: &Tables, entry: Entry) -> Self {
        let mut pair = Self {
            made: MADE.get() + 1,
            seen: Seen::default(),
            machine: Machine::with_room(1024, 64),
            entry,
            ours: tables.clone(),
            expected: tables.clone(),
            is_sound: false,
            effects: [(); 2].map(|()| (0..ROOM as u64).map(|place| 0x0506_0708 * (place + 1)).collect()),
            noted: None,
            log: None,
        };
        MADE.set(pair.made);
        pair.judge().expect("the tables that a run starts with are judged alike");
        pair
    }

    /// A log is kept, and after so many of its requests, again and again, the rows are worked out from it.
    pub fn with_log(self, note: Note, every: usize) -> Self {
        Self { noted: Some((note, every)), ..self }
    }

    pub fn tables(&self) -> &Tables {
        &self.expected
    }

    pub fn seen(&self) -> &Seen {
        &self.seen
    }

    /// Judges tables that were changed from outside, by ours and by document 01. Where they are sound the machine comes to hold what they say.
    fn judge(&mut self) -> Result<(), String> {
        self.is_sound = are_sound(&self.expected);
        let ours = self.ours.lend().are_tables_sound();
        if ours != self.is_sound {
            return Err(format!("ours finds the tables sound: {ours}; document 01: {}", self.is_sound));
        }
        if self.is_sound {
            read_words(&self.expected, &mut self.machine);
            let before = self.expected.clone();
            write_words(&self.machine, &mut self.expected);
            assert_eq!(self.expected.difference(&before), None, "the machine does not hold what the tables say");
        }
        self.ours.difference(&self.expected).map_or(Ok(()), Err)
    }

    /// Takes a step, and compares all that both give and hold. An error says what differs.
    pub fn take(&mut self, step: &Step) -> Result<Option<Given>, String> {
        assert_eq!(self.made, MADE.get(), "another pair of this thread has the machine");
        match *step {
            Step::Ask(ref ask) => return self.ask(ask).map(Some),
            Step::Replace { table, place, ref words } => {
                for tables in [&mut self.ours, &mut self.expected] {
                    tables.run_mut(table).iter_mut().skip(place).zip(words).for_each(|(place, word)| *place = *word);
                }
            }
            Step::Resize { table, words } => {
                for tables in [&mut self.ours, &mut self.expected] {
                    tables.run_mut(table).resize(words, 0x0102_0304_0506_0708);
                }
            }
        }
        // What is changed from outside is in no log.
        self.log = None;
        self.judge().map(|()| None)
    }

    /// Works every row out from the log, if there is one, and compares it.
    pub fn work_out(&self) -> Result<(), String> {
        self.log.as_ref().and_then(|log| log.difference(&self.ours)).map_or(Ok(()), Err)
    }

    /// Gives a request to both.
    fn ask(&mut self, ask: &Ask) -> Result<Given, String> {
        let by_document = number(&self.expected, self.is_sound, ask);
        // The original owns its tables and allocates its room: it knows no 12 and no 13.
        let is_asked = by_document != 12 && by_document != 13;
        let (expected, panicked) = if is_asked { self.by_original(&ask.request) } else { (Given::refused(by_document), false) };
        let mut values = [[0x1122_3344_5566_7788; MOST_VALUE_WORDS]; 2];
        expected.write_values(&ask.request, &mut values[1][..ask.value_words]);
        expected.write_effects(&mut self.effects[1][..ask.effects_words]);
        let room = &mut self.effects[0][..ask.effects_words];
        let number = (self.entry)(&mut self.ours, &ask.request, room, &mut values[0][..ask.value_words]);
        if number != expected.number || number != by_document {
            let original = if is_asked { format!(", the original {}", expected.number) } else { String::new() };
            return Err(format!("ours gives {number}{original}, document 01 {by_document}"));
        }
        let differs = self.ours.difference(&self.expected);
        let differs = differs.or_else(|| difference("the effects", &self.effects[0], &self.effects[1]));
        if let Some(complaint) = differs.or_else(|| difference("the values", &values[0], &values[1])) {
            return Err(complaint);
        }
        self.seen.count(kind(&ask.request), number, panicked);
        if let Some((note, every)) = self.noted {
            note(&mut self.log, &ask.request, number);
            if self.log.as_ref().is_some_and(|log| log.length().is_multiple_of(every)) {
                self.work_out()?;
            }
        }
        Ok(expected)
    }

    /// What the original gives, and whether it panics. What the tables should be afterwards is noted.
    fn by_original(&mut self, request: &Request) -> (Given, bool) {
        let outcome = self.machine.perform(request);
        let (number, values) = match outcome.answer {
            Answer::Refused(number) | Answer::Panic(number) => (number, vec![]),
            Answer::Done => (0, vec![]),
            Answer::Mask(value) | Answer::State(value) | Answer::Count(value) => (0, vec![value]),
            Answer::Yes(yes) => (0, vec![yes as usize]),
            Answer::Run => (0, vec![0]),
            Answer::Off => (0, vec![1]),
            Answer::Operation(kind, x, y) => (0, vec![2, kind, x, y]),
        };
        // On unsound tables only a setup that is done leaves what the machine holds.
        if self.is_sound || number == 0 {
            write_words(&self.machine, &mut self.expected);
            self.is_sound = true;
        }
        let values = values.iter().map(|&value| value as u64).collect();
        let given = Given { number: number as u64, did: outcome.did.iter().map(record).collect(), values };
        (given, matches!(outcome.answer, Answer::Panic(_)))
    }

    pub fn moment(&self) -> Moment {
        Moment { machine: self.machine.tables(), tables: self.expected.clone(), is_sound: self.is_sound, log: self.log.clone() }
    }

    pub fn go_back(&mut self, moment: &Moment) {
        self.machine.put_back(moment.machine.clone());
        self.ours.copy(&moment.tables);
        self.expected.copy(&moment.tables);
        self.is_sound = moment.is_sound;
        self.log.clone_from(&moment.log);
    }
}

/// A hart's number and the six numbers of the command that it did.
fn record(effect: &Effect) -> [u64; EFFECT_WORDS] {
    let [kind, mask, base, start, size, tag] = Command::of_remote_command(&effect.command).numbers();
    [effect.confidential_hart_id, kind, mask, base, start, size, tag].map(|number| number as u64)
}
