//! Times of two that do the same.
use std::time::{Duration, Instant};

const RUNS: usize = 400;

/// Prints the ratio of the least times of ours and of plain Rust, over many runs in turn.
pub fn ratio(name: &str, mut ours: impl FnMut(), mut rust: impl FnMut()) {
    ratio_on(name, [&mut (), &mut ()], |_| {}, |_| ours(), |_| rust());
}

/// The same where each works on what it is lent, made ready before each run. Making it ready is not timed.
pub fn ratio_on<T>(name: &str, lent: [&mut T; 2], ready: impl Fn(&mut T), mut ours: impl FnMut(&mut T), mut rust: impl FnMut(&mut T)) {
    let mut least = [Duration::MAX; 2];
    for _ in 0..RUNS {
        ready(lent[0]);
        let start = Instant::now();
        ours(lent[0]);
        least[0] = least[0].min(start.elapsed());
        ready(lent[1]);
        let start = Instant::now();
        rust(lent[1]);
        least[1] = least[1].min(start.elapsed());
    }
    println!("| {name} | {:.2} |", least[0].as_secs_f64() / least[1].as_secs_f64());
}
