//! Runs the proved entries and the original Rust side by side, and says how many requests of each kind were compared with each number.
use compare::draw::MAX;
use compare::runs::{damage, edges, exhaustive, interleavings, lines, log, sequences, side_by_side};
use compare::seen::{Seen, parted};
use compare::tables::{TABLES, Table};
use std::fmt::Display;
use std::iter::repeat_n;
use std::process::ExitCode;
use std::time::Instant;

const USAGE: &str = "\
compare          a slice of everything
compare --all    everything
";

/// How much is run.
struct Amounts {
    /// Sequences of each size and the steps of each: with fewer than 63 harts, up to 65, and with 1,023 or 1,024.
    sequences: [(usize, usize); 3],
    /// How long every sequence from the alphabet is.
    length: usize,
    /// The rows are worked out from the log of every sequence so long, and of random sequences: how many of each size and the requests of each,
    /// as above.
    worked_out: (usize, [(usize, usize); 3]),
    /// Pairs of lists drawn at random, beside those by hand.
    drawn: usize,
    /// Sizes of good states that are damaged in every word, and how many states of each.
    damaged: (&'static [(usize, usize)], usize),
    /// Words of each table of a state of 65 harts that are damaged; with fewer harts it is more of them, with 1,024 fewer. Rows likewise.
    words: usize,
    /// Traces, and the lines of each.
    traces: (usize, usize),
}

const SLICE: Amounts = Amounts {
    sequences: [(4, 5000), (4, 1000), (4, 100)],
    length: 4,
    worked_out: (3, [(4, 1000), (2, 500), (1, 200)]),
    drawn: 200,
    damaged: (&[(2, 2)], 1),
    words: 20,
    traces: (40, 5000),
};
const ALL: Amounts = Amounts {
    sequences: [(40, 25_000), (20, 10_000), (12, 1000)],
    length: 5,
    worked_out: (4, [(20, 5000), (10, 2000), (6, 1000)]),
    drawn: 10_000,
    damaged: (&[(1, 1), (2, 2), (3, 2), (2, 3)], 8),
    words: 200,
    traces: (200, 10_000),
};

/// Does a run, prints how much it compared and how long it took, and adds it to what was seen.
fn run<E: Display>(name: &str, seen: &mut Seen, jobs: usize, job: impl Fn(usize) -> Result<Seen, E> + Sync) -> Result<(), String> {
    let begun = Instant::now();
    let compared = side_by_side(jobs, job).map_err(|difference| format!("{name}: {difference}"))?;
    println!("{name:<14} {:>12} requests {:>8.1} s", parted(compared.total()), begun.elapsed().as_secs_f64());
    seen.add(&compared);
    Ok(())
}

fn compare(amounts: &Amounts, seen: &mut Seen) -> Result<(), String> {
    let sizes = sequences::sizes();
    let of_each_size = |amounts: [(usize, usize); 3]| {
        let all = sizes.iter().flat_map(|&size| {
            let (count, steps) = amounts[(size.0 >= 63) as usize + (size.0 > 65) as usize];
            repeat_n((size, steps), count)
        });
        all.collect::<Vec<_>>()
    };
    let sequences = of_each_size(amounts.sequences);
    run("sequences", seen, sequences.len(), |at| sequences::run(at as u64, sequences[at].0, sequences[at].1))?;
    run("exhaustive", seen, exhaustive::alphabet().len(), |first| exhaustive::run(first, amounts.length))?;
    let letters = exhaustive::alphabet().len();
    let (length, drawn) = (amounts.worked_out.0, of_each_size(amounts.worked_out.1));
    run("worked out", seen, letters + 1 + drawn.len(), |at| match at.checked_sub(letters + 1) {
        Some(at) => log::run(at as u64, drawn[at].0, drawn[at].1),
        None if at < letters => log::every_sequence(at, length),
        None => log::all_regions(),
    })?;
    let edges = edges::jobs();
    run("edges", seen, edges.len(), |at| edges::run(&edges[at]))?;
    let by_hand = interleavings::jobs();
    run("interleavings", seen, by_hand + amounts.drawn, |at| {
        if at < by_hand { interleavings::run(at) } else { interleavings::run_drawn(at as u64) }
    })?;
    let (small, states) = amounts.damaged;
    let large = [((8, 4), 5 * amounts.words), ((65, 64), amounts.words), ((1024, 64), amounts.words / 4)];
    let good: Vec<_> = small.iter().flat_map(|&size| repeat_n((size, MAX), states)).chain(large).collect();
    run("damaged words", seen, good.len() * TABLES, |at| {
        let (size, most) = good[at / TABLES];
        damage::words((at / TABLES) as u64, size, Table::ALL[at % TABLES], most)
    })?;
    run("damaged rows", seen, sizes.len(), |at| {
        damage::rows(at as u64, sizes[at], if sizes[at].0 < 63 { 10 * amounts.words } else { amounts.words / 4 })
    })?;
    run("lengths", seen, sizes.len(), |at| damage::lengths(at as u64, sizes[at]))?;
    run("lists", seen, 1, |_| lines::lists())?;
    run("lines", seen, amounts.traces.0, |at| lines::run(1000 + at as u64, amounts.traces.1))
}

fn main() -> ExitCode {
    let words: Vec<String> = std::env::args().skip(1).collect();
    let amounts = match words.iter().map(String::as_str).collect::<Vec<_>>()[..] {
        [] => SLICE,
        ["--all"] => ALL,
        _ => {
            eprint!("{USAGE}");
            return ExitCode::from(2);
        }
    };
    let begun = Instant::now();
    let mut seen = Seen::default();
    if let Err(difference) = compare(&amounts, &mut seen) {
        eprintln!("compare: {difference}");
        return ExitCode::FAILURE;
    }
    println!("\n{seen}\n");
    let gaps = seen.gaps();
    gaps.iter().for_each(|gap| eprintln!("compare: {gap}"));
    println!("compare: {} requests in {:.0} s, no disagreement", parted(seen.total()), begun.elapsed().as_secs_f64());
    if gaps.is_empty() { ExitCode::SUCCESS } else { ExitCode::FAILURE }
}
