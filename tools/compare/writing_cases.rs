//! Messages: every length of both parts at the corners of the sending windows first, then random ones, and frames that one
//! program writes and the other reads.

use crate::check::with_check;
use crate::numbers::*;
use crate::other::plain_read;
use crate::ours::{self, Clock};
use crate::symbol::good_clock;
use crate::trial::Trial;

const WORDS: usize = 101;

const SHORT: [u32; 3] = [49, 64, 79];
const LONG: [u32; 3] = [112, 128, 145];
const SOF: [u32; 3] = [182, 200, 218];

pub const NOMINAL: Clock = Clock {
    short: 64,
    long: 128,
    sof: 200,
};

/// The corners of the sending windows, their middles and the nominal clock.
pub fn corner_clocks() -> Vec<Clock> {
    let mut found = Vec::new();
    for short in SHORT {
        for long in LONG {
            for sof in SOF {
                found.push(Clock { short, long, sof });
            }
        }
    }
    found
}

/// Clocks that lie outside by as little as can be, or by much.
pub fn bad_clocks() -> Vec<Clock> {
    let shorts = [0, 48, 80, u32::MAX].map(|short| Clock { short, ..NOMINAL });
    let longs = [0, 111, 146, u32::MAX].map(|long| Clock { long, ..NOMINAL });
    let sofs = [0, 181, 219, u32::MAX].map(|sof| Clock { sof, ..NOMINAL });
    [shorts, longs, sofs].concat()
}

pub fn edges(trial: &mut Trial) {
    for clock in corner_clocks() {
        for main in 0..=13 {
            for response in 0..=13 {
                for kind in 0..3 {
                    lengths(trial, clock, main, kind, response, &[100, WORDS]);
                }
            }
        }
    }
    for clock in bad_clocks() {
        for main in [0, 1, 5, 11, 12] {
            for response in [0, 1, 5, 11, 12] {
                for kind in 0..4 {
                    lengths(trial, clock, main, kind, response, &[0, 100, WORDS]);
                }
            }
        }
    }
    // Kinds that there are not, response bytes that are ignored, and other numbers of lent words.
    for kind in [0, 1, 2, 3, 4, 255, u32::MAX] {
        for response in [0, 1, 9, 10, 11, 12, 13, 500, 5_000] {
            for main in [0, 1, 2, 9, 10, 11, 12, 500] {
                let lent = [0, 1, 99, 100, WORDS, 102, 150];
                lengths(trial, NOMINAL, main, kind, response, &lent);
            }
        }
    }
    // Two inputs that are only read may overlap.
    let bytes = [0x48, 0x6B, 0x10, 0x41, 0x0C, 0x1A, 0xF8, 0xFF];
    for from in 0..bytes.len() {
        for past in from..=bytes.len() {
            trial.write(NOMINAL, &bytes[..5], 1, &bytes[from..past], WORDS);
            trial.write(NOMINAL, &bytes[..5], 2, &bytes[from..past], WORDS);
        }
    }
}

/// Messages of these lengths: random bytes, and bytes of one bit's value throughout.
fn lengths(
    trial: &mut Trial,
    clock: Clock,
    main: usize,
    kind: u32,
    response: usize,
    lent: &[usize],
) {
    for words in lent {
        let bytes = trial.random.bytes(main + response);
        trial.write(clock, &bytes[..main], kind, &bytes[main..], *words);
    }
    let same = vec![trial.random.pick(&[0x00, 0xFF, 0x80, 0x01, 0x55]); main + response];
    trial.write(clock, &same[..main], kind, &same[main..], WORDS);
}

fn any_clock(trial: &mut Trial) -> Clock {
    Clock {
        short: trial.random.within(48, 80),
        long: trial.random.within(111, 146),
        sof: trial.random.within(181, 219),
    }
}

/// What a frame's bytes are, checks included, and how many of them are the main part's.
fn sent(main: &[u8], kind: u32, response: &[u8]) -> (Vec<u8>, usize) {
    let first = with_check(main);
    let second = match kind {
        0 => Vec::new(),
        1 => response.to_vec(),
        _ => with_check(response),
    };
    ([first.as_slice(), second.as_slice()].concat(), first.len())
}

/// Intervals in which nothing opens, and of which there are an even number.
fn in_front(trial: &mut Trial) -> Vec<u32> {
    let count = 2 * trial.random.below(4);
    let width = |i: usize, r: u32| if i % 2 == 0 { r % 240 } else { r % 2_000 };
    (0..count)
        .map(|i| width(i, trial.random.next() as u32))
        .collect()
}

/// What one program writes, the other reads back, whatever stands before it and after it on the line.
fn round_trip(trial: &mut Trial, clock: Clock, main: &[u8], kind: u32, response: &[u8]) {
    let words = trial.write(clock, main, kind, response, WORDS);
    if words.is_empty() {
        return;
    }
    let front = in_front(trial);
    let rest: Vec<u32> = (0..trial.random.below(3))
        .map(|_| trial.random.next() as u32)
        .collect();
    let line = [front.as_slice(), &words, &rest].concat();
    // The words are the same from both programs, as Trial::write has seen; so each reads what the other wrote.
    let mut bytes = [0; 12];
    let by_second = plain_read(&line, 0, &mut bytes);
    let mut again = [0; 12];
    let by_ours = ours::read(&line, 0, &mut again);
    let (all, first) = sent(main, kind, response);
    for (who, answer, bytes) in [("second", by_second, bytes), ("proved", by_ours, again)] {
        let places = (answer.opening, answer.next) == (front.len(), front.len() + words.len() - 1);
        let parts = (answer.main, answer.response, answer.kind) == (first, all.len() - first, kind);
        if answer.number != FRAME || !places || !parts || bytes[..all.len()] != all {
            println!("compare: the {who} program does not read back what was written");
            println!("  clock {clock:?} main {main:?} kind {kind} response {response:?}");
            println!("  line {line:?}\n  answer {answer:?} bytes {bytes:?}");
            std::process::exit(1);
        }
    }
    trial.read(&line, 0, 12);
}

pub fn round_trips(trial: &mut Trial) {
    for clock in corner_clocks() {
        for main in 1..=11 {
            for kind in 0..3 {
                for response in 0..=(11 - main) {
                    let bytes = trial.random.bytes(main + response);
                    round_trip(trial, clock, &bytes[..main], kind, &bytes[main..]);
                }
            }
        }
    }
}

pub fn random(trial: &mut Trial, times: usize) {
    for turn in 0..times {
        let clock = any_clock(trial);
        let (main, response) = (trial.random.below(14), trial.random.below(14));
        let bytes = trial.random.bytes(main + response);
        let kind = trial.random.below(3) as u32;
        if turn % 4 == 0 && good_clock(crate::other::second_clock(clock)) {
            round_trip(trial, clock, &bytes[..main], kind, &bytes[main..]);
        } else {
            let lent = [99, 100, WORDS, 102, 130][trial.random.below(5)];
            trial.write(clock, &bytes[..main], kind, &bytes[main..], lent);
        }
    }
}
