//! What is run: each run has jobs that go side by side, and each job gives what it compared.
use crate::entries::Entry;
use crate::log::Note;
use crate::pair::{Given, Moment, Pair, Step};
use crate::seen::Seen;
use crate::shortest::{Disagreement, shortest};
use crate::tables::Tables;
use std::fmt::Display;
use std::sync::atomic::{AtomicBool, AtomicUsize, Ordering};
use std::thread;

pub mod damage;
pub mod edges;
pub mod exhaustive;
pub mod interleavings;
pub mod lines;
pub mod log;
pub mod sequences;

/// What a job gives, or the shortest sequence at which both differ.
pub type Agreed<T> = Result<T, Box<Disagreement>>;

/// A pair and the steps that it has taken.
pub struct Run {
    pair: Pair,
    start: Tables,
    entry: Entry,
    steps: Vec<Step>,
    /// Who notes requests in a log, where one is kept.
    note: Option<Note>,
}

impl Run {
    pub fn new(start: Tables, entry: Entry) -> Self {
        Self { pair: Pair::new(&start, entry), start, entry, steps: Vec::new(), note: None }
    }

    /// One that keeps a log, and works the rows out from it after so many of its requests, again and again.
    pub fn with_log(start: Tables, entry: Entry, note: Note, every: usize) -> Self {
        Self { pair: Pair::new(&start, entry).with_log(note, every), start, entry, steps: Vec::new(), note: Some(note) }
    }

    /// The tables as they stand, and what was compared so far.
    pub fn tables(&self) -> &Tables {
        self.pair.tables()
    }

    pub fn seen(&self) -> Seen {
        self.pair.seen().clone()
    }

    pub fn moment(&self) -> Moment {
        self.pair.moment()
    }

    /// Takes a step, or finds the shortest sequence that shows the disagreement.
    pub fn take(&mut self, step: impl Into<Step>) -> Agreed<Option<Given>> {
        self.steps.push(step.into());
        self.pair.take(&self.steps[self.steps.len() - 1]).map_err(|complaint| self.told(&complaint))
    }

    /// Works every row out from the log.
    pub fn work_out(&self) -> Agreed<()> {
        self.pair.work_out().map_err(|complaint| self.told(&complaint))
    }

    /// The shortest sequence that shows a disagreement. Where there is a log, the rows are worked out from it after each step.
    fn told(&self, complaint: &str) -> Box<Disagreement> {
        eprintln!("{complaint}; after {} steps, of which fewer are looked for", self.steps.len());
        let start = || {
            let pair = Pair::new(&self.start, self.entry);
            match self.note {
                Some(note) => pair.with_log(note, 1),
                None => pair,
            }
        };
        Box::new(shortest(start, &self.steps))
    }

    /// Takes a step, does what follows it, and goes back to where it was.
    pub fn branch(&mut self, here: &Moment, step: impl Into<Step>, then: impl FnOnce(&mut Self) -> Agreed<()>) -> Agreed<()> {
        self.take(step)?;
        then(self)?;
        self.steps.pop();
        self.pair.go_back(here);
        Ok(())
    }

    /// Takes each of these steps from where it is now, and goes back after each.
    pub fn each<S: Into<Step>>(&mut self, steps: impl IntoIterator<Item = S>) -> Agreed<()> {
        let here = self.moment();
        steps.into_iter().try_for_each(|step| self.branch(&here, step, |_| Ok(())))
    }
}

/// Does jobs 0 up to a count, as many at once as there are processors, and gives what all compared, or the text of a disagreement. It starts no
/// job after one.
pub fn side_by_side<E: Display>(jobs: usize, job: impl Fn(usize) -> Result<Seen, E> + Sync) -> Result<Seen, String> {
    let (next, stop) = (AtomicUsize::new(0), AtomicBool::new(false));
    let work = || -> Result<Seen, String> {
        let mut seen = Seen::default();
        while !stop.load(Ordering::Relaxed) {
            let at = next.fetch_add(1, Ordering::Relaxed);
            if at >= jobs {
                break;
            }
            let compared = job(at).inspect_err(|_| stop.store(true, Ordering::Relaxed));
            seen.add(&compared.map_err(|difference| difference.to_string())?);
        }
        Ok(seen)
    };
    thread::scope(|scope| {
        let workers: Vec<_> = (0..thread::available_parallelism().map_or(1, |count| count.get())).map(|_| scope.spawn(work)).collect();
        let mut all = Seen::default();
        for worker in workers {
            all.add(&worker.join().expect("a worker ends")?);
        }
        Ok(all)
    })
}
