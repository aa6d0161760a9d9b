//! The shortest sequence that shows a disagreement.
use crate::pair::{Pair, Step};
use crate::tables::TABLES;
use oracle::driver::Random;
use std::fmt::{Display, Formatter};
use std::time::{Duration, Instant};

/// In how many orders steps are left out: which are left depends on the order.
const ORDERS: u64 = 16;
/// How long steps are left out.
const TIME: Duration = Duration::from_secs(30);
/// How many words of tables may be lent in the search for a shorter sequence of the same steps.
const MOST_WORDS: usize = 500_000_000;

/// Steps from lent tables, at the last of which ours and the original differ.
#[derive(Clone, Debug)]
pub struct Disagreement {
    pub words: [usize; TABLES],
    pub steps: Vec<Step>,
    pub complaint: String,
    /// Each step was tried to be left out: there was time for it.
    pub is_tried: bool,
}

impl Display for Disagreement {
    fn fmt(&self, f: &mut Formatter<'_>) -> std::fmt::Result {
        let which = if self.is_tried { "of which none can be left out" } else { "of which some may be left out" };
        writeln!(f, "On tables of {:?} words, steps {which}:", self.words)?;
        for step in &self.steps {
            writeln!(f, "    {step}")?;
        }
        write!(f, "At the last: {}", self.complaint)
    }
}

/// What is left of a list, by places in it, what differs at the last, and whether there was time to try each.
#[derive(Clone)]
pub struct Left {
    pub places: Vec<usize>,
    pub complaint: String,
    pub is_tried: bool,
}

/// Leaves out parts of a list in an order of its own, first large ones, until nothing can be left out or the time is over.
fn leave_out(random: &mut Random, end: Instant, first: &impl Fn(&[usize]) -> Option<(usize, String)>, mut left: Left) -> Left {
    let mut width = left.places.len();
    while width > 0 {
        let mut shorter = false;
        let mut parts: Vec<_> = left.places.chunks(width).map(|part| part[0]..=part[part.len() - 1]).collect();
        while !parts.is_empty() {
            if Instant::now() > end {
                return left;
            }
            let part = parts.swap_remove(random.below(parts.len()));
            let mut places: Vec<_> = left.places.iter().copied().filter(|place| !part.contains(place)).collect();
            if let Some((at, complaint)) = first(&places) {
                shorter |= at + 1 < left.places.len();
                places.truncate(at + 1);
                left = Left { places, complaint, is_tried: false };
            }
        }
        // One part may be needed only for another that is gone by now.
        if !(shorter && width == 1) {
            width /= 2;
        }
    }
    Left { is_tried: true, ..left }
}

/// The shortest way to a difference with the items of a list. It is the shortest that several orders of leaving out lead to, or a shorter one of
/// the same items in any order and any number, if so many tries find it. `first` says at which of some places both differ first, and what
/// differs; it may be another difference than that of the whole.
pub fn shortest_way(length: usize, tries: usize, first: impl Fn(&[usize]) -> Option<(usize, String)>) -> Left {
    let end = Instant::now() + TIME;
    let all: Vec<_> = (0..length).collect();
    let (last, complaint) = first(&all).expect("the whole shows a difference");
    let whole = Left { places: all[..=last].to_vec(), complaint, is_tried: false };
    let orders = (0..ORDERS).map(|seed| leave_out(&mut Random::new(seed), end, &first, whole.clone()));
    let left = orders.min_by_key(|left| (left.places.len(), !left.is_tried)).expect("there is an order");
    let count = left.places.len();
    let shorter = (1..count as u32).flat_map(|length| (0..count.saturating_pow(length)).map(move |code| (length, code)));
    let mut found = shorter.take(tries).take_while(|_| Instant::now() < end).filter_map(|(length, code)| {
        let places: Vec<_> = (0..length).map(|at| left.places[code / count.pow(at) % count]).collect();
        first(&places).map(|(at, complaint)| Left { places: places[..=at].to_vec(), complaint, is_tried: true })
    });
    found.next().unwrap_or_else(|| left.clone())
}

/// The shortest sequence of these steps that shows a disagreement, where `start` gives the pair that they begin with.
pub fn shortest(start: impl Fn() -> Pair, steps: &[Step]) -> Disagreement {
    let words = start().tables().runs().map(Vec::len);
    let Left { places, complaint, is_tried } = shortest_way(steps.len(), MOST_WORDS / words.iter().sum::<usize>().max(1), |places| {
        let mut pair = start();
        let mut steps = places.iter().map(|&place| &steps[place]).enumerate();
        steps.find_map(|(at, step)| pair.take(step).err().map(|complaint| (at, complaint)))
    });
    Disagreement { words, steps: places.into_iter().map(|place| steps[place].clone()).collect(), complaint, is_tried }
}
