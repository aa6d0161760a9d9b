//! Every sequence of up to so many requests from a small alphabet, on a VM of two harts and two hardware harts.
use super::{Agreed, Run};
use crate::draw::noise;
use crate::entries::by_c;
use crate::pair::Step;
use crate::seen::Seen;
use oracle::driver::{Command, Random, Request};

/// Requests of every kind: both harts, both hardware harts, and commands that select one, the other or both.
pub fn alphabet() -> Vec<Request> {
    let ipi = Command { kind: 1, mask: 3, base: 0, ..Command::default() };
    let fence = |mask| Command { kind: 3, mask, base: 0, start: 4096, size: 4096, tag: 0 };
    let shutdown = Command { kind: 6, ..Command::default() };
    let on = |hardware_hart: usize| {
        [
            Request::Steal { hart: 0, hardware_hart },
            Request::Steal { hart: 1, hardware_hart },
            Request::Return { hardware_hart },
            Request::Suspend { hardware_hart },
            Request::Stop { hardware_hart },
            Request::Wake { hardware_hart, address: 96, opaque: 8 },
            Request::Off { hardware_hart },
            Request::Await { hardware_hart, kind: 3, x: 8, y: 9 },
            Request::Process { hardware_hart },
            Request::Resume { hardware_hart },
            Request::Broadcast { hardware_hart, command: ipi },
            Request::Broadcast { hardware_hart, command: if hardware_hart == 0 { shutdown } else { fence(1) } },
        ]
    };
    let others = [
        Request::Setup { harts: 2, hardware_harts: 2, boot: 1, a1: 1, mepc: 2, vsatp: 3, vsstatus: 6 },
        Request::Start { hart: 0, address: 32, opaque: 5 },
        Request::Start { hart: 1, address: 64, opaque: 7 },
        Request::Status { hart: 1 },
        Request::Send { sender: 0, command: fence(3) },
        Request::Allow { bits: 5 },
        Request::Add { base: 4096, size: 4096 },
        Request::Remove { base: 5000, size: 0 },
        Request::Defined { base: 4096, size: 1 },
        Request::Home,
    ];
    on(0).into_iter().chain(on(1)).chain(others).collect()
}

/// Sequences of up to so many requests, each from where the run is.
fn every(run: &mut Run, alphabet: &[Step], length: usize) -> Agreed<()> {
    if length == 0 {
        return Ok(());
    }
    let here = run.moment();
    alphabet.iter().try_for_each(|step| run.branch(&here, step.clone(), |run| every(run, alphabet, length - 1)))
}

/// The sequences that begin with one request of the alphabet, after a setup.
pub fn run(first: usize, length: usize) -> Agreed<Seen> {
    from(Run::new(noise(&mut Random::new(first as u64), 2, 2), by_c), first, length)
}

/// The same on a run's tables.
pub fn from(mut run: Run, first: usize, length: usize) -> Agreed<Seen> {
    let alphabet: Vec<Step> = alphabet().into_iter().map(Step::from).collect();
    run.take(Request::Setup { harts: 2, hardware_harts: 2, boot: 0, a1: 4096, mepc: 8192, vsatp: 7, vsstatus: 7 })?;
    run.take(alphabet[first].clone())?;
    every(&mut run, &alphabet, length - 1)?;
    Ok(run.seen())
}
