//! Random sequences at many sizes, mostly of requests that are done.
use super::{Agreed, Run};
use crate::draw::{MAX, Style, noise, setup};
use crate::entries::{Entry, by_c, by_package};
use crate::seen::Seen;
use oracle::driver::{Command, Random, Request};

const HARTS: [usize; 9] = [1, 2, 3, 8, 63, 64, 65, 1023, 1024];
const HARDWARE_HARTS: [usize; 4] = [1, 2, 63, 64];

/// Each number of harts with each of hardware harts.
pub fn sizes() -> Vec<(usize, usize)> {
    HARTS.into_iter().flat_map(|n| HARDWARE_HARTS.map(|m| (n, m))).collect()
}

/// So many steps on tables of n harts and m hardware harts. A large VM starts with up to half of its harts started and commands waiting.
pub fn sequence(seed: u64, (n, m): (usize, usize), steps: usize, entry: Entry) -> Agreed<Run> {
    let random = &mut Random::new(seed);
    let mut run = Run::new(noise(random, n, m), entry);
    let style = Style::new(random, n, m);
    run.take(setup(random, n, m))?;
    if n >= 63 {
        for _ in 0..(n / 2).min(steps / 4) {
            run.take(Request::Start { hart: random.below(n), address: 1, opaque: 2 })?;
        }
        for start in 0..random.of(&[1, 60, 63, 64]) {
            run.take(Request::Send { sender: MAX, command: Command { kind: 3, mask: 0, base: MAX, start, size: 0, tag: 0 } })?;
        }
    }
    for _ in 0..steps {
        let step = style.step(random, run.tables());
        run.take(step)?;
    }
    Ok(run)
}

/// Every fourth sequence goes through the safe package.
pub fn run(seed: u64, size: (usize, usize), steps: usize) -> Agreed<Seen> {
    let entry = if seed % 4 == 3 { by_package } else { by_c };
    sequence(seed, size, steps, entry).map(|run| run.seen())
}
