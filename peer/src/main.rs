//! An implementation of the kernel's interface, written from its pages alone, to compare others with.

mod answer;
mod kernel;
mod make;
mod random;
mod script;
mod store;

#[cfg(test)]
mod edges;
#[cfg(test)]
mod reader_tests;
#[cfg(test)]
mod tally;

use std::io::{self, BufReader, BufWriter, Write};
use std::process::ExitCode;

const USAGE: &str = "\
usage: peer replay < script > answers
       peer make SEED LINES [slot|packed deadline|level] > script
";

fn main() -> ExitCode {
    let arguments: Vec<String> = std::env::args().skip(1).collect();
    let words: Vec<&str> = arguments.iter().map(String::as_str).collect();
    match words[..] {
        ["replay"] => replay(),
        ["make", seed, lines] => make(seed, lines, None),
        ["make", seed, lines, store, order] => make(seed, lines, Some((store, order))),
        _ => usage(),
    }
}

fn usage() -> ExitCode {
    eprint!("{USAGE}");
    ExitCode::from(2)
}

fn replay() -> ExitCode {
    let script = BufReader::with_capacity(1 << 16, io::stdin().lock());
    let answers = BufWriter::with_capacity(1 << 16, io::stdout().lock());
    match script::replay(script, answers) {
        Ok(()) => ExitCode::SUCCESS,
        Err(stop) => {
            let text = [&stop.text()[..], b"\n"].concat();
            // Where standard error cannot be written to, the exit status has to tell.
            let _ = io::stderr().write_all(&text);
            ExitCode::FAILURE
        }
    }
}

fn make(seed: &str, lines: &str, kind: Option<(&str, &str)>) -> ExitCode {
    let (Ok(seed), Ok(lines)) = (seed.parse(), lines.parse()) else {
        return usage();
    };
    let kind = match kind {
        None => make::kind_of_seed(seed),
        Some((store, order)) => match script::kind(store, order) {
            Some(kind) => kind,
            None => return usage(),
        },
    };
    let output = BufWriter::with_capacity(1 << 16, io::stdout().lock());
    match write_script(seed, lines, kind, output) {
        Ok(()) => ExitCode::SUCCESS,
        Err(error) => {
            eprintln!("error: standard output: {error}");
            ExitCode::FAILURE
        }
    }
}

fn write_script(seed: u64, lines: u64, kind: make::Kind, mut output: impl Write) -> io::Result<()> {
    for line in make::Maker::new(seed, lines, kind) {
        output.write_all(line.as_bytes())?;
        output.write_all(b"\n")?;
    }
    output.flush()
}
