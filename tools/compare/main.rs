//! Puts the same calls to the proved library and to the second program, and compares every answer and all lent memory.
//!
//!     compare SEED TIMES           the edges, then random cases; TIMES makes the random part longer
//!     compare SEED TIMES VARIANT   the same against a second program with one rule altered: it has to end with status 1
//!     compare variants             the names of these variants
//!     compare watched              the names of those that document 01's words on rounds and on waiting exclude
//!     compare SEED alone VARIANT   histories of such a variant without the library: it has to end with status 1
//!     compare empty                no case at all: it has to end with status 3
//!
//! Status 0: all agreed and every answer of the documents occurred; 1: a difference, which is printed; 2: a wrong command
//! line; 3: an answer occurred too seldom.

#[allow(dead_code)]
#[path = "../second/bench.rs"]
mod bench;
#[allow(dead_code)]
#[path = "../second/check.rs"]
mod check;
mod desk_cases;
mod histories;
mod lines;
#[path = "../second/live.rs"]
mod live;
mod live_cases;
#[allow(dead_code)]
#[path = "../../examples/rust/j1850/numbers.rs"]
mod numbers;
mod other;
mod other_live;
mod other_row;
mod ours;
mod random;
#[allow(dead_code)]
#[path = "../second/reading.rs"]
mod reading;
mod reading_cases;
mod row_cases;
mod small_cases;
#[allow(dead_code)]
#[path = "../second/symbol.rs"]
mod symbol;
mod tally;
#[allow(dead_code)]
#[path = "../second/text.rs"]
mod text;
mod trial;
mod trial_desk;
mod trial_live;
mod trial_row;
#[allow(dead_code)]
#[path = "../second/volts.rs"]
mod volts;
mod volts_cases;
mod waiting;
#[allow(dead_code)]
#[path = "../second/writing.rs"]
mod writing;
mod writing_cases;
mod wrong;

use trial::Trial;
use wrong::{Part, Wrong};

fn usage() -> ! {
    eprintln!("usage: compare SEED TIMES [VARIANT] | compare SEED alone VARIANT");
    eprintln!("       compare variants | compare watched | compare empty");
    std::process::exit(2)
}

/// The names of some variants, a line for each.
fn print_names(which: impl Fn(Wrong) -> bool) {
    for (wrong, _, name) in wrong::ALL {
        if which(*wrong) {
            println!("{name}");
        }
    }
}

fn main() {
    let words: Vec<String> = std::env::args().skip(1).collect();
    let words: Vec<&str> = words.iter().map(String::as_str).collect();
    let (seed, times, which) = match words[..] {
        ["variants"] => return print_names(|_| true),
        ["watched"] => return print_names(|wrong| wrong::WATCHED.contains(&wrong)),
        ["empty"] => return finish(&Trial::new(0, Wrong::Nothing), 0),
        [seed, "alone", name] => return alone(seed, name),
        [seed, times] => (
            seed.parse(),
            times.parse(),
            Some((Wrong::Nothing, Part::All)),
        ),
        [seed, times, name] => (seed.parse(), times.parse(), wrong::named(name)),
        _ => usage(),
    };
    let (seed, times, wrong, part) = match (seed, times, which) {
        (Ok(seed), Ok(times), Some((wrong, part))) => (seed, times, wrong, part),
        _ => usage(),
    };
    let mut trial = Trial::new(seed, wrong);
    println!("compare: seed {seed}");
    run(&mut trial, part, times);
    finish(&trial, times);
}

/// Histories of a variant by itself.
fn alone(seed: &str, name: &str) {
    let (seed, wrong) = match (seed.parse(), wrong::named(name)) {
        (Ok(seed), Some((wrong, _))) => (seed, wrong),
        _ => usage(),
    };
    let mut trial = Trial::new(seed, wrong);
    trial.alone = true;
    histories::random(&mut trial, 20);
}

/// The edges of a part, or of all, and then random cases of all in turn.
fn run(trial: &mut Trial, part: Part, times: usize) {
    let has = |one| part == Part::All || part == one;
    if has(Part::Small) {
        small_cases::edges(trial);
    }
    if has(Part::Volts) {
        volts_cases::edges(trial);
    }
    if has(Part::Writing) {
        writing_cases::edges(trial);
        writing_cases::round_trips(trial);
    }
    if has(Part::Reading) {
        reading_cases::edges(trial);
    }
    if has(Part::Live) {
        live_cases::edges(trial);
    }
    if has(Part::Row) {
        row_cases::edges(trial);
    }
    if has(Part::Text) {
        desk_cases::edges(trial);
    }
    for _ in 0..times {
        small_cases::random(trial, 20_000);
        volts_cases::random(trial, 20_000);
        writing_cases::random(trial, 20_000);
        reading_cases::random(trial, 40_000);
        live_cases::random(trial, 6_000);
        histories::random(trial, 300);
        desk_cases::random(trial, 1_000);
    }
}

/// Tells how often each answer occurred, and fails where one of the documents' is missing.
fn finish(trial: &Trial, times: usize) {
    println!("compare: {} calls agree", trial.tally.total());
    print!("  how often each answer occurred:");
    trial.tally.print();
    let missing = trial.tally.missing(times);
    missing.iter().for_each(|line| println!("compare: {line}"));
    if !missing.is_empty() {
        std::process::exit(3);
    }
}
