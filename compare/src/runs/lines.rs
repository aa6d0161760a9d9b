//! Lines of generated traces, bad ones among them, to the trace program; and the requests of the fixed lists to the entries.
use super::Run;
use crate::draw::noise;
use crate::entries::by_c;
use crate::seen::{BAD_LINE, Seen, kind};
use crate::shortest::shortest_way;
use crate::tables::Tables;
use oracle::driver::generator::Generator;
use oracle::driver::{Answer, Machine, Outcome, Random, Request};
use std::io::Write;
use std::path::{Path, PathBuf};
use std::process::{Command, Stdio};
use std::{fs, thread};

fn root() -> PathBuf {
    Path::new(env!("CARGO_MANIFEST_DIR")).join("..")
}

/// A program that answers lines, and its arguments.
pub type Program<'a> = (&'a Path, &'a [&'a str]);

/// What a program prints for lines, and whether it ends well. It need not read all of them.
fn printed((path, arguments): Program, lines: &[Vec<u8>]) -> (Vec<u8>, bool) {
    let spawned = Command::new(path).args(arguments).stdin(Stdio::piped()).stdout(Stdio::piped()).spawn();
    let mut child = spawned.unwrap_or_else(|error| panic!("{}: {error}", path.display()));
    let mut input = child.stdin.take().expect("it is piped");
    let text = lines.join(&b'\n');
    let writer = thread::spawn(move || input.write_all(&text));
    let output = child.wait_with_output().expect("the program ends");
    drop(writer.join().expect("the writer ends"));
    (output.stdout, output.status.success())
}

/// What the original prints for a line; where it panics document 01's number alone.
fn told(outcome: &Outcome) -> String {
    let text = outcome.to_string();
    text.strip_prefix("panic\t").map_or(text.clone(), str::to_string)
}

/// The first line at which a program and the original differ, with what each printed.
fn difference(program: Program, lines: &[Vec<u8>], seen: &mut Seen) -> Option<(usize, String)> {
    let (printed, ends_well) = printed(program, lines);
    let mut rest = &printed[..];
    let mut machine = Machine::new();
    for (at, line) in lines.iter().enumerate() {
        let outcome = machine.line(line);
        let expected = told(&outcome);
        let Some(others) = rest.strip_prefix(expected.as_bytes()) else {
            let ours = String::from_utf8_lossy(rest).lines().next().unwrap_or_default().to_string();
            return Some((at, format!("the program goes on with {ours:?}, the original with {expected:?}")));
        };
        rest = others;
        let number = match outcome.answer {
            Answer::Refused(number) | Answer::Panic(number) => number as u64,
            _ => 0,
        };
        let kind = Request::parse(line).filter(|_| number != 20).map_or(BAD_LINE, |request| kind(&request));
        seen.count(kind, number, matches!(outcome.answer, Answer::Panic(_)));
    }
    let complaint = match (rest, ends_well) {
        ([], true) => return None,
        ([], false) => "the program does not end well",
        _ => "the program prints more than the original",
    };
    Some((lines.len().saturating_sub(1), complaint.into()))
}

/// So many lines of a generated trace to a program, or the shortest lines at which it differs from the original.
pub fn run_program(program: Program, seed: u64, count: usize) -> Result<Seen, String> {
    let mut generator = Generator::new(seed);
    let lines: Vec<_> = (0..count).map(|_| generator.line()).collect();
    let mut seen = Seen::default();
    if difference(program, &lines, &mut seen).is_none() {
        return Ok(seen);
    }
    let left = shortest_way(lines.len(), 500, |places| {
        let lines: Vec<_> = places.iter().map(|&place| lines[place].clone()).collect();
        difference(program, &lines, &mut Seen::default())
    });
    let text: String = left.places.iter().map(|&place| format!("    {}\n", String::from_utf8_lossy(&lines[place]))).collect();
    Err(format!("The fewest lines that were found:\n{text}At the last: {}", left.complaint))
}

/// The same to the trace program, as `tools/build monitor` builds it.
pub fn run(seed: u64, count: usize) -> Result<Seen, String> {
    run_program((&root().join("target/bin/monitor"), &[]), seed, count)
}

/// The requests of every fixed list, on tables of the trace program's size.
pub fn lists() -> Result<Seen, String> {
    let mut seen = Seen::default();
    let mut paths: Vec<_> =
        fs::read_dir(root().join("oracle/lists")).expect("the lists are there").map(|entry| entry.expect("a file").path()).collect();
    paths.sort();
    for path in paths.iter().filter(|path| path.extension().is_some_and(|extension| extension == "trace")) {
        let mut ours = noise(&mut Random::new(1), 8, 4);
        for (run, needed) in ours.runs_mut().into_iter().zip(Tables::needed(8, 4)) {
            run.truncate(needed);
        }
        let mut run = Run::new(ours, by_c);
        for request in fs::read(path).expect("a list").split(|&byte| byte == b'\n').filter_map(Request::parse) {
            run.take(request).map_err(|disagreement| format!("{}: {disagreement}", path.display()))?;
        }
        seen.add(&run.seen());
    }
    Ok(seen)
}
