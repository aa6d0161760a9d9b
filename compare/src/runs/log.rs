//! The rows worked out from the log, beside our tables: on every short sequence of a small alphabet, with all regions that there may be, and on
//! random sequences at many sizes.
use super::{Agreed, Run, exhaustive};
use crate::MOST_REGIONS;
use crate::draw::{MAX, Style, noise, setup};
use crate::entries::by_c;
use crate::log::{Log, Note};
use crate::pair::Step;
use crate::seen::Seen;
use oracle::driver::{Command, Random, Request};

/// Every sequence of up to so many requests that begins with one request of the alphabet. The rows are worked out after each.
pub fn every_sequence(first: usize, length: usize) -> Agreed<Seen> {
    exhaustive::from(Run::with_log(noise(&mut Random::new(first as u64), 2, 2), by_c, Log::note, 1), first, length)
}

/// All regions that there may be and two more, of which 201 are removed and added again; the others are added again too, and overlap.
pub fn all_regions() -> Agreed<Seen> {
    let random = &mut Random::new(1);
    let mut run = Run::with_log(noise(random, 1, 1), by_c, Log::note, 50);
    run.take(setup(random, 1, 1))?;
    for _ in 0..2 {
        for place in 0..MOST_REGIONS + 2 {
            run.take(Request::Add { base: 16 * place, size: 8 })?;
        }
        run.work_out()?;
        run.take(Request::Remove { base: 16 * 300 + 4, size: 16 * 200 })?;
    }
    run.work_out()?;
    Ok(run.seen())
}

/// So many requests on tables of n harts and m hardware harts, after so many of which, again and again, and after the last the rows are worked
/// out. About every second VM starts with up to half of its harts started and many commands waiting.
pub fn sequence(seed: u64, (n, m): (usize, usize), requests: usize, note: Note, every: usize) -> Agreed<Run> {
    let random = &mut Random::new(seed);
    let mut run = Run::with_log(noise(random, n, m), by_c, note, every);
    let style = Style::new(random, n, m);
    run.take(setup(random, n, m))?;
    if random.one_in(2) {
        for _ in 0..(n / 2).min(requests / 4) {
            run.take(Request::Start { hart: random.below(n), address: 1, opaque: 2 })?;
        }
        for start in 0..random.of(&[60, 63, 64]) {
            run.take(Request::Send { sender: MAX, command: Command { kind: 3, mask: 0, base: MAX, start, size: 0, tag: 0 } })?;
        }
    }
    for _ in 0..requests {
        let ask = style.ask(random, run.tables());
        run.take(Step::Ask(ask))?;
    }
    run.work_out()?;
    Ok(run)
}

/// The rows of fewer than 63 harts are worked out after each request, those of more now and then.
pub fn run(seed: u64, size: (usize, usize), requests: usize) -> Agreed<Seen> {
    sequence(seed, size, requests, Log::note, if size.0 < 63 { 1 } else { 50 }).map(|run| run.seen())
}
