//! Two harts that ask at once: every order of two short lists of requests, each list in its own order.
use super::{Agreed, Run};
use crate::draw::{Style, noise};
use crate::entries::by_c;
use crate::pair::Step;
use crate::seen::Seen;
use oracle::driver::{Command, Random, Request};

/// Lists that harts ask: one for the hart h that is or comes to be on hardware hart k, where `other` is another hart.
fn lists(h: usize, k: usize, other: usize) -> Vec<Vec<Request>> {
    let hardware_hart = k;
    let steal = Request::Steal { hart: h, hardware_hart };
    let give_back = Request::Return { hardware_hart };
    let resume = Request::Resume { hardware_hart };
    let process = Request::Process { hardware_hart };
    let fence = |start| Command { kind: 3, mask: 1 << h | 1 << other, base: 0, start, size: 4096, tag: 0 };
    let send = |start| Request::Broadcast { hardware_hart, command: fence(start) };
    let shutdown = Request::Broadcast { hardware_hart, command: Command { kind: 6, ..Command::default() } };
    let operation = Request::Await { hardware_hart, kind: 4, x: h, y: k };
    let wake = Request::Wake { hardware_hart, address: 96, opaque: h };
    let start = Request::Start { hart: other, address: 64, opaque: 7 };
    let (suspend, stop, off) = (Request::Suspend { hardware_hart }, Request::Stop { hardware_hart }, Request::Off { hardware_hart });
    let region = |base| Request::Add { base, size: 4096 };
    vec![
        // The hypervisor runs a hart, takes it back and runs it again.
        vec![steal.clone(), resume.clone(), give_back.clone(), steal.clone(), resume.clone()],
        // A hart flushes the other's pages, twice the same and once another, and does what came meanwhile.
        vec![send(0), send(0), send(4096), process.clone(), resume.clone()],
        // A hart is interrupted between two fences.
        vec![send(0), give_back.clone(), steal.clone(), send(4096), process.clone()],
        // A hart stops itself while others send to it, and another starts it.
        vec![stop.clone(), send(0), give_back.clone(), start.clone(), steal.clone()],
        vec![start.clone(), send(0), start, send(4096), resume.clone()],
        // A hart sleeps and wakes.
        vec![suspend.clone(), give_back.clone(), steal.clone(), wake, resume.clone()],
        // A hart asks the hypervisor and is answered.
        vec![operation.clone(), operation.clone(), give_back.clone(), steal.clone(), resume.clone()],
        // A hart powers the machine off, or itself.
        vec![send(0), shutdown, give_back.clone(), steal.clone(), resume.clone()],
        vec![operation, off, resume.clone(), give_back, steal],
        // Both map devices, and look.
        vec![region(0), region(4096 * h), Request::Defined { base: 8, size: 8 }, Request::Remove { base: 4095, size: 2 }, region(8192)],
        // The hypervisor asks how the VM stands.
        vec![Request::Status { hart: h }, Request::Home, Request::Allow { bits: 1 << k }, Request::Status { hart: other }, Request::Home],
    ]
}

/// Every order of two lists from where the run is.
fn every_order(run: &mut Run, one: &[Step], two: &[Step]) -> Agreed<()> {
    if one.is_empty() && two.is_empty() {
        return Ok(());
    }
    let here = run.moment();
    if let [first, rest @ ..] = one {
        run.branch(&here, first.clone(), |run| every_order(run, rest, two))?;
    }
    if let [first, rest @ ..] = two {
        run.branch(&here, first.clone(), |run| every_order(run, one, rest))?;
    }
    Ok(())
}

fn steps(requests: &[Request]) -> Vec<Step> {
    requests.iter().cloned().map(Step::from).collect()
}

/// A VM of three harts, all started, and two hardware harts, which hold harts 0 and 1 or none.
fn started(seed: u64, stolen: bool) -> Agreed<Run> {
    let mut run = Run::new(noise(&mut Random::new(seed), 3, 2), by_c);
    run.take(Request::Setup { harts: 3, hardware_harts: 2, boot: 0, a1: 1, mepc: 2, vsatp: 3, vsstatus: 7 })?;
    for hart in [1, 2] {
        run.take(Request::Start { hart, address: 4, opaque: 5 })?;
    }
    for hart in [0, 1].into_iter().filter(|_| stolen) {
        run.take(Request::Steal { hart, hardware_hart: hart })?;
    }
    Ok(run)
}

/// Whom the second list is for, as hart, hardware hart and other hart: each hart has its own hardware hart, or both lists are for one hart, or
/// for one hardware hart.
const SECOND: [(usize, usize, usize); 3] = [(1, 1, 0), (0, 1, 2), (1, 0, 2)];

/// How many jobs there are: each list beside each, for each second, stolen and at home.
pub fn jobs() -> usize {
    lists(0, 0, 1).len().pow(2) * SECOND.len() * 2
}

/// Every order of two lists by hand.
pub fn run(job: usize) -> Agreed<Seen> {
    let (stolen, job) = (job % 2 == 0, job / 2);
    let ((h, k, other), job) = (SECOND[job % SECOND.len()], job / SECOND.len());
    let (one, two) = (lists(0, 0, 1), lists(h, k, other));
    let mut run = started(job as u64, stolen)?;
    every_order(&mut run, &steps(&one[job / two.len()]), &steps(&two[job % two.len()]))?;
    Ok(run.seen())
}

/// Every order of two lists of five requests each, drawn at random for what the harts hold at the start.
pub fn run_drawn(seed: u64) -> Agreed<Seen> {
    let random = &mut Random::new(seed);
    let mut run = started(seed, !random.one_in(4))?;
    let style = Style::new(random, 3, 2);
    let [one, two] = [(); 2].map(|()| (0..5).map(|_| style.request(random, run.tables())).collect::<Vec<_>>());
    every_order(&mut run, &steps(&one), &steps(&two))?;
    Ok(run.seen())
}
