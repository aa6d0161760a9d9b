//! The inputs of docs/DIFFERENCES.md: what the port answers to each, and what the original Rust does where it panics or has no such refusal.
use compare::EFFECT_WORDS;
use compare::entries::by_c;
use compare::original::hart_words;
use compare::pair::{Ask, Step};
use compare::runs::Run;
use compare::tables::{Table, Tables};
use oracle::confidential_flow::ConfidentialFlow;
use oracle::core::control_data::{ConfidentialHart, ConfidentialVm, ConfidentialVmId, ConfidentialVmMmioRegion, HardwareHart};
use oracle::driver::{Answer, Command, Machine, Request, operation};
use std::panic::{AssertUnwindSafe, catch_unwind};

/// The requests of a text, parted by commas, with spaces for tabs, S for the smallest setup and MAX for 2^64 − 1.
fn requests(text: &str) -> Vec<Request> {
    let max = usize::MAX.to_string();
    let line = |part: &str| part.trim().replace('S', "setup 1 1 0 0 0 0 0").replace("MAX", &max).replace(' ', "\t");
    text.split(',').map(|part| Request::parse(line(part).as_bytes()).unwrap_or_else(|| panic!("{part:?} is no request"))).collect()
}

/// What the original answers to the last request.
fn original(text: &str) -> Answer {
    let mut machine = Machine::new();
    requests(text).iter().map(|request| machine.perform(request).answer).last().expect("a request")
}

/// A run on zeroed tables for two harts and one hardware hart.
fn run() -> Run {
    Run::new(Tables::filled(Tables::needed(2, 1), || 0), by_c)
}

/// The number that the port gives to the last step; all steps are compared on the way.
fn number(run: &mut Run, steps: impl IntoIterator<Item = Step>) -> u64 {
    let given = steps.into_iter().map(|step| run.take(step).unwrap_or_else(|disagreement| panic!("{disagreement}"))).last();
    given.flatten().expect("the last step is a request").number
}

fn steps(text: &str) -> Vec<Step> {
    requests(text).into_iter().map(Step::from).collect()
}

#[test]
fn refusals_where_the_rust_panics() {
    let cases = [
        ("S, steal 0 0, steal 0 0", 15),
        ("S, return 0", 16),
        ("S, suspend 0", 16),
        ("S, stop 0", 16),
        ("S, wake 0 0 0", 16),
        ("S, off 0", 16),
        ("S, process 0", 16),
        ("S, resume 0", 16),
        ("S, steal 0 0, await 0 1 0 0, await 0 1 0 0", 17),
    ];
    for (text, refusal) in cases {
        assert_eq!((original(text), number(&mut run(), steps(text))), (Answer::Panic(refusal), refusal as u64), "{text}");
    }
    for text in ["S, add MAX 1", "S, remove MAX 1", "S, defined MAX 1"] {
        assert_eq!(number(&mut run(), steps(text)), 11, "{text}");
    }
    assert!(panics(|| drop(ConfidentialVmMmioRegion::new(usize::MAX, 1))));
    assert_eq!(number(&mut run(), steps("S, steal 0 1")), 14);
    // A hardware hart that holds a hart which the VM does not have.
    let mut run = run();
    number(&mut run, steps("S, steal 0 0"));
    let damage = Step::Replace { table: Table::Hardware, place: 1, words: vec![1] };
    assert_eq!(number(&mut run, [damage].into_iter().chain(steps("return 0"))), 12);
    let mut vm = ConfidentialVm::new(ConfidentialVmId::new(1), vec![ConfidentialHart::from_vm_hart_reset(0)]);
    let mut hardware_hart = HardwareHart::init(0);
    *hardware_hart.confidential_hart_mut() = ConfidentialHart::from_vm_hart_reset(1);
    hardware_hart.confidential_hart_mut().set_confidential_vm_id(ConfidentialVmId::new(1));
    assert!(panics(|| vm.return_confidential_hart(&mut hardware_hart)));
}

fn panics(run: impl FnOnce()) -> bool {
    catch_unwind(AssertUnwindSafe(run)).is_err()
}

#[test]
fn refusals_that_the_rust_does_not_have() {
    for (text, refusal) in [
        ("S, await 0 1 0 0", 16),
        ("S, broadcast 0 1 0 0 0 0 0", 16),
        ("S, broadcast 0 6 0 0 0 0 0", 16),
        ("S, return 1", 14),
        ("setup 0 1 0 0 0 0 0", 18),
        ("S, send 0 0 0 0 0 0 0", 19),
    ] {
        assert_eq!(number(&mut run(), steps(text)), refusal, "{text}");
    }
    assert_eq!(number(&mut run(), steps("home")), 12);
    let short = Step::Resize { table: Table::Home, words: 11 };
    assert_eq!(number(&mut run(), [short].into_iter().chain(steps("S"))), 13);
    let short = |text, effects_words, value_words| Step::Ask(Ask { request: requests(text)[0].clone(), effects_words, value_words });
    assert_eq!(number(&mut run(), steps("S").into_iter().chain([short("process 0", 64 * EFFECT_WORDS - 1, 5)])), 13);
    assert_eq!(number(&mut run(), [short("home", 0, 3)]), 13);
    // The trace program's own number; `compare/run` has the program answer such lines.
    assert_eq!(Machine::new().line(b"").answer, Answer::Refused(20));
}

/// The original's own functions, without the oracle's driver: a dummy waits for an operation and sends, but for a shutdown request.
#[test]
fn the_rust_lets_a_dummy_wait_and_send() {
    let mut hardware_hart = HardwareHart::init(0);
    ConfidentialFlow::of_hardware_hart(&mut hardware_hart).set_resumable_operation(operation(1, 8, 9).expect("a known kind"));
    assert_eq!(hart_words(hardware_hart.confidential_hart())[..6], [0, 0, 0, 1, 8, 9]);
    let mut send = |kind| {
        let command = Command { kind, ..Command::default() }.to_remote_command().expect("a known kind");
        let mut vm = ConfidentialVm::new(ConfidentialVmId::new(1), vec![]);
        ConfidentialFlow::of_hardware_hart(&mut hardware_hart).broadcast_remote_command(&mut vm, command)
    };
    assert_eq!(send(1), Ok(0));
    assert!(panics(|| drop(send(6))));
}

/// What the oracle prints for the last of these requests, and the port gives the same.
fn print(cases: &[(&str, &str)]) {
    for (text, answer) in cases {
        let mut machine = Machine::new();
        let outcome = requests(text).iter().map(|request| machine.perform(request)).last().expect("a request");
        assert_eq!(outcome.to_string().trim_end().replace('\n', " / ").replace('\t', " "), *answer, "{text}");
        number(&mut run(), steps(text));
    }
}

/// What functions of another shape than the Rust's give.
#[test]
fn answers_of_another_shape() {
    print(&[
        ("S", "0"),
        ("S, steal 0 0", "0 0"),
        ("S, steal 0 0, resume 0", "0 run"),
        ("S, steal 0 0, broadcast 0 1 0 0 0 0 0", "0 0"),
        ("S, steal 0 0, broadcast 0 1 1 0 0 0 0", "did 0 1 1 0 0 0 0 / 0 0"),
        ("S, steal 0 0, process 0", "0 0"),
        ("S, add 0 0", "0"),
        ("S, steal 0 0, suspend 0, return 0, status 0", "0 2"),
    ]);
}

#[test]
fn findings() {
    print(&[
        ("S, steal 0 0, broadcast 0 1 2 0 0 0 0", "0 0"),
        ("S, home", "0 1"),
        ("S, steal 0 0, stop 0, resume 0", "0 run"),
        ("S, steal 0 0, suspend 0, return 0, steal 0 0, resume 0", "0 run"),
        ("S, steal 0 0, suspend 0, return 0, status 0", "0 2"),
        ("S, steal 0 0, off 0, return 0, start 0 0 0", "4"),
        ("S, add 4096 4096, add 5000 0", "10"),
        ("S, steal 0 0, stop 0, status 0", "0 0"),
        ("S, steal 0 0, stop 0, start 0 0 0", "2"),
        ("S, steal 0 0, send 1 6 0 0 0 0 0, stop 0, return 0, start 0 0 0, steal 0 0, resume 0", "did 0 6 0 0 0 0 0 / 0 off"),
        ("setup 2 1 0 0 0 0 0, steal 0 0, broadcast 0 2 2 0 0 0 0, start 1 0 0, return 0, steal 1 0, resume 0", "0 run"),
        ("setup 2 1 0 0 0 0 0, steal 0 0, broadcast 0 6 0 0 0 0 0, start 1 0 0", "0"),
        ("S, add 4096 4096, defined 8192 0", "0 1"),
        ("S, add 0 0, add 0 0, remove 0 0", "0"),
        ("S, add 0 1, add 1 1, defined 0 2", "0 0"),
    ]);
    // What no answer shows: registers after a wake and after a start, and the regions that stand.
    let after = |text| {
        let mut run = run();
        number(&mut run, steps(text));
        run.tables().clone()
    };
    let woken = after("setup 1 1 0 0 0 1 2, steal 0 0, suspend 0, wake 0 0 0");
    assert_eq!([woken.hardware_row(0)[9], woken.hardware_row(0)[11]], [1, 2]);
    assert_eq!(after("S, steal 0 0, stop 0, return 0, start 0 0 0").home_row(0)[10], 549755815938);
    assert_eq!(after("S, add 0 0, add 0 0, remove 0 0").head[3], 2);
    // A hart that does not empty its queue.
    let fences = (0..64).map(|start| format!(", send 0 3 2 0 {start} 0 0")).collect::<String>();
    assert_eq!(number(&mut run(), steps(&format!("setup 2 1 0 0 0 0 0, start 1 0 0{fences}, send 0 3 2 0 0 0 0"))), 8);
}
