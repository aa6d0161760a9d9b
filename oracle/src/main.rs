//! The command line: `oracle run` answers a trace, `oracle gen` makes one.
use oracle::driver::Machine;
use oracle::driver::generator::Generator;
use std::io::{BufRead, BufReader, BufWriter, Write};
use std::process::ExitCode;

const USAGE: &str = "\
oracle run < TRACE       answers each line of a trace as the original Rust does; where that panics, with
                         `panic` and the number that document 01 gives
oracle gen SEED LINES    makes a trace
";

fn main() -> ExitCode {
    let words: Vec<String> = std::env::args().skip(1).collect();
    let words: Vec<&str> = words.iter().map(String::as_str).collect();
    let done = match words.as_slice() {
        ["run"] => run(),
        ["gen", seed, lines] => match (seed.parse(), lines.parse()) {
            (Ok(seed), Ok(lines)) => generate(seed, lines),
            _ => return usage(),
        },
        _ => return usage(),
    };
    match done {
        Ok(()) => ExitCode::SUCCESS,
        Err(error) if error.kind() == std::io::ErrorKind::BrokenPipe => ExitCode::SUCCESS,
        Err(error) => {
            eprintln!("oracle: {error}");
            ExitCode::FAILURE
        }
    }
}

fn usage() -> ExitCode {
    eprint!("{USAGE}");
    ExitCode::from(2)
}

fn run() -> std::io::Result<()> {
    let mut input = BufReader::new(std::io::stdin().lock());
    let mut output = BufWriter::new(std::io::stdout().lock());
    let mut machine = Machine::new();
    let mut line = Vec::new();
    while input.read_until(b'\n', &mut line)? != 0 {
        write!(output, "{}", machine.line(line.strip_suffix(b"\n").unwrap_or(&line)))?;
        line.clear();
    }
    output.flush()
}

/// The last line of a trace with an odd seed has no line end.
fn generate(seed: u64, lines: usize) -> std::io::Result<()> {
    let mut output = BufWriter::new(std::io::stdout().lock());
    let mut generator = Generator::new(seed);
    for place in 1..=lines {
        output.write_all(&generator.line())?;
        if place < lines || seed % 2 == 0 {
            output.write_all(b"\n")?;
        }
    }
    output.flush()
}
