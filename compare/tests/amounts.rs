//! The runs do as much as they say: how many requests each compares is worked out by hand.
use compare::runs::damage::{self, LIMITS};
use compare::runs::{exhaustive, interleavings, log, sequences, side_by_side};
use compare::tables::Table;

#[test]
fn every_sequence_is_walked() {
    let letters = exhaustive::alphabet().len() as u64;
    for first in [0, 20, 33] {
        // A setup, the first request, and every sequence of one and of two requests after it.
        let seen = exhaustive::run(first, 3).unwrap_or_else(|found| panic!("{found}"));
        assert_eq!(seen.total(), 1 + 1 + letters + letters * letters);
    }
}

#[test]
fn every_sequence_is_walked_with_its_log() {
    let letters = exhaustive::alphabet().len() as u64;
    for first in [0, 24, 33] {
        let seen = log::every_sequence(first, 3).unwrap_or_else(|found| panic!("{found}"));
        assert_eq!(seen.total(), 1 + 1 + letters + letters * letters);
    }
    // A setup, and twice 1,026 adds and a remove.
    let seen = log::all_regions().unwrap_or_else(|found| panic!("{found}"));
    assert_eq!(seen.total(), 1 + 2 * 1027);
    // A setup and the requests, and before these in some sequences a start for every second hart and up to 64 sends.
    for seed in 0..8 {
        let seen = log::run(seed, (8, 2), 500).unwrap_or_else(|found| panic!("{found}"));
        assert!([0, 4 + 60, 4 + 63, 4 + 64].contains(&(seen.total() - 501)), "{}", seen.total());
    }
}

#[test]
fn every_order_is_walked() {
    // Two lists of five requests begin with i of the first and j of the second in (i + j)! / (i! j!) orders, each a request more than one before.
    let factorial = |n: u64| (1..=n).product::<u64>();
    let orders: u64 = (0..6).flat_map(|i| (0..6).map(move |j| factorial(i + j) / (factorial(i) * factorial(j)))).sum();
    let requests = orders - 1;
    for job in 0..interleavings::jobs() {
        let seen = interleavings::run(job).unwrap_or_else(|found| panic!("{found}"));
        // A setup, two starts, and where harts are stolen two steals.
        assert_eq!(seen.total(), if job % 2 == 0 { 5 } else { 3 } + requests, "job {job}");
    }
    let drawn = interleavings::run_drawn(4).unwrap_or_else(|found| panic!("{found}")).total();
    assert!([3 + requests, 5 + requests].contains(&drawn), "{drawn}");
}

#[test]
fn every_word_is_damaged() {
    let size = (2, 2);
    for table in [Table::Head, Table::Home, Table::Hardware] {
        let good = damage::good(1, size).unwrap_or_else(|found| panic!("{found}"));
        let (before, words) = (good.seen().total(), good.tables().runs()[table as usize].clone());
        let seen = damage::words(1, size, table, usize::MAX).unwrap_or_else(|found| panic!("{found}"));
        // Each word becomes each limit but itself, and four others; after each damage 19 requests are asked.
        let damaged: u64 = words.iter().map(|word| LIMITS.len() as u64 + 4 - LIMITS.contains(word) as u64).sum();
        assert_eq!(seen.total(), before + 19 * damaged, "{table}");
    }
}

#[test]
fn a_sequence_has_its_steps() {
    // A setup, and the steps, of which some change a register instead of asking.
    let seen = sequences::run(5, (2, 2), 1000).unwrap_or_else(|found| panic!("{found}"));
    assert!((930..1001).contains(&seen.total()), "{}", seen.total());
}

#[test]
fn every_job_is_done_once() {
    let jobs = 37;
    let job = |at| exhaustive::run(at % 34, 1);
    // Each of these is a setup and one request.
    assert_eq!(side_by_side(jobs, job).unwrap_or_else(|found| panic!("{found}")).total(), 2 * jobs as u64);
}
