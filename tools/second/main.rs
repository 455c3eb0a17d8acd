//! The second program: document 01, and live reading of document 02, worked again by other methods, to be compared against.

mod bench;
mod bench_trials;
mod check;
mod frame_trials;
mod live;
mod live_trials;
mod reading;
mod self_test;
mod symbol;
mod text;
mod volts;
mod worked;
mod writing;

use std::io::{BufRead, Read, Write};
use std::process::ExitCode;

const USAGE: &str = "usage: second worked | second desk [FILE] | second desks | second self-test";

fn input(file: Option<&String>) -> std::io::Result<Vec<u8>> {
    let mut bytes = Vec::new();
    match file {
        Some(file) => bytes = std::fs::read(file)?,
        None => {
            std::io::stdin().read_to_end(&mut bytes)?;
        }
    }
    Ok(bytes)
}

fn print(bytes: &[u8]) -> std::io::Result<()> {
    let mut out = std::io::stdout().lock();
    out.write_all(bytes)?;
    out.flush()
}

/// Answers many inputs in one run: each comes as its length on a line of its own and then its bytes, and so does its text.
fn desks() -> std::io::Result<()> {
    let mut input = std::io::stdin().lock();
    let mut texts = Vec::new();
    let mut line = String::new();
    while input.read_line(&mut line)? > 0 {
        let bad = |error| std::io::Error::new(std::io::ErrorKind::InvalidData, error);
        let length: usize = line.trim_end().parse().map_err(bad)?;
        let mut bytes = vec![0; length];
        input.read_exact(&mut bytes)?;
        let text = text::desk(&bytes);
        writeln!(texts, "{}", text.len())?;
        texts.extend(text);
        line.clear();
    }
    print(&texts)
}

fn run_self_test() -> ExitCode {
    match self_test::self_test() {
        Ok(cases) => {
            println!("self-test: {cases} cases, all right");
            ExitCode::SUCCESS
        }
        Err(case) => {
            println!("self-test: wrong: {case}");
            ExitCode::FAILURE
        }
    }
}

fn finish(printed: std::io::Result<()>) -> ExitCode {
    match printed {
        Ok(()) => ExitCode::SUCCESS,
        Err(error) => {
            eprintln!("second: {error}");
            ExitCode::FAILURE
        }
    }
}

fn main() -> ExitCode {
    let words: Vec<String> = std::env::args().skip(1).collect();
    let names: Vec<&str> = words.iter().map(String::as_str).collect();
    match names.as_slice() {
        ["worked"] => finish(print(worked::worked().as_bytes())),
        ["desk"] | ["desk", _] => {
            finish(input(words.get(1)).and_then(|bytes| print(&text::desk(&bytes))))
        }
        ["desks"] => finish(desks()),
        ["self-test"] => run_self_test(),
        _ => {
            eprintln!("{USAGE}");
            ExitCode::from(2)
        }
    }
}
