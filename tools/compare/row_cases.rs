//! Rows: document 01's own cases and each refusal with each that competes with it, then rounds of two stations and of many.

use crate::check::with_check;
use crate::numbers::*;
use crate::ours::{Clock, Station, Verdict};
use crate::trial::Trial;
use crate::trial_row::Row;
use crate::waiting::Watch;
use crate::writing_cases::{bad_clocks, corner_clocks, NOMINAL};

pub const WORDS: usize = 101;

const QUICK: Clock = Clock {
    short: 49,
    long: 112,
    sof: 182,
};

const SLOW: Clock = Clock {
    short: 79,
    long: 145,
    sof: 218,
};

/// A station that holds a message; the stored bytes past it are not 0.
pub fn station(trial: &mut Trial, clock: Clock, message: &[u8]) -> Station {
    let mut bytes = std::array::from_fn(|_| trial.random.next() as u8);
    bytes[..message.len()].copy_from_slice(message);
    Station {
        clock,
        bytes,
        length: message.len() as u8,
    }
}

fn row_of(trial: &mut Trial, holders: &[(Clock, &[u8])]) -> Row {
    let one = |(clock, message): &(Clock, &[u8])| station(trial, *clock, message);
    let stations: Vec<Station> = holders.iter().map(one).collect();
    Row::new(&mut trial.random, &stations)
}

/// A value that document 01 names.
fn expect<T: PartialEq + std::fmt::Debug>(what: &str, found: T, wanted: T) {
    if found != wanted {
        println!("compare: {what}: {found:?}, and document 01 has {wanted:?}");
        std::process::exit(1);
    }
}

pub fn edges(trial: &mut Trial) {
    on_paper(trial);
    limits(trial);
    row_refusals(trial);
    pairs(trial);
    idle_clocks(trial);
    many(trial);
}

const THROUGH: Verdict = Verdict { fared: 1, bit: 0 };

fn lost(bit: usize) -> Verdict {
    Verdict { fared: 2, bit }
}

fn on_paper(trial: &mut Trial) {
    let mut row = row_of(trial, &[(QUICK, &[0xFF]), (NOMINAL, &[0xFF, 0xFF])]);
    let (answer, _) = trial.round(&mut row, WORDS);
    let found = (answer.number, answer.words, answer.line_time);
    expect("FF against FF FF", found, (0, 27, 2_740));
    expect("FF", answer.verdicts[0], lost(17));
    expect("FF FF", answer.verdicts[1], THROUGH);

    let mut row = row_of(trial, &[(NOMINAL, &[0x00]), (NOMINAL, &[0xFF])]);
    let (answer, _) = trial.round(&mut row, WORDS);
    expect("00 against FF", answer.verdicts[0], THROUGH);
    expect("FF against 00", answer.verdicts[1], lost(1));

    let mut row = row_of(
        trial,
        &[
            (NOMINAL, &[0x00]),
            (NOMINAL, &[0xFF]),
            (NOMINAL, &[0xFF, 0xFF]),
        ],
    );
    let mut rounds = [0; 3];
    for number in 1..=3 {
        let (answer, _) = trial.round(&mut row, WORDS);
        for place in (0..3).filter(|i| answer.verdicts[*i] == THROUGH) {
            rounds[place] += number;
        }
    }
    expect("rounds of 00, FF, FF FF", rounds, [1, 3, 2]);
    let (answer, _) = trial.round(&mut row, WORDS);
    expect("nobody waiting", answer.number, REFUSED_NOTHING);
}

/// 11 bytes are taken and 12 are not; 101 words are enough and 100 are not.
fn limits(trial: &mut Trial) {
    let mut row = row_of(trial, &[(NOMINAL, &[]), (SLOW, &[])]);
    let bytes = trial.random.bytes(12);
    expect("12 bytes", trial.load(&mut row, 0, &bytes), REFUSED_MESSAGE);
    expect("11 bytes", trial.load(&mut row, 0, &bytes[..11]), DONE);
    expect("no bytes", trial.load(&mut row, 1, &[]), REFUSED_MESSAGE);
    expect("1 byte", trial.load(&mut row, 1, &bytes[..1]), DONE);
    expect(
        "100 words",
        trial.round(&mut row, 100).0.number,
        REFUSED_LENT,
    );
    expect("101 words", trial.round(&mut row, WORDS).0.number, DONE);
    // The message on which the line is busy longest is not there, since its check byte is another; this one comes near.
    let mut row = row_of(trial, &[(SLOW, &[0xAA; 11])]);
    let (answer, _) = trial.round(&mut row, WORDS);
    expect("words of eleven times AA", answer.words, 99);
}

/// The first of a call's rules that holds, in document 01's order, noting which later ones it stood in front of.
fn first_of(trial: &mut Trial, call: &'static str, rules: &[(u32, bool)]) -> u32 {
    let mut holding = rules.iter().filter(|(_, holds)| *holds).map(|(n, _)| *n);
    let first = match holding.next() {
        Some(first) => first,
        None => return 0,
    };
    for other in holding {
        trial.tally.compete(call, first, other);
    }
    first
}

/// Every unsoundness that a station can have: a length over 11, or a clock outside by as little as can be, or by much.
fn unsound(sound: Station) -> Vec<Station> {
    let lengths = [12, 13, 128, 254, 255].map(|length| Station { length, ..sound });
    let clocks = bad_clocks().into_iter();
    lengths
        .into_iter()
        .chain(clocks.map(|clock| Station { clock, ..sound }))
        .collect()
}

/// Rows of each size around the limits, all sound or with one station of each unsoundness at each end and inside.
fn row_refusals(trial: &mut Trial) {
    for count in [0, 1, 2, 31, 32, 33, 34usize] {
        for held in [0, 2] {
            let message = trial.random.bytes(held);
            let stations: Vec<Station> = (0..count)
                .map(|_| station(trial, NOMINAL, &message))
                .collect();
            refusals(trial, &stations, false);
            for place in [0, count / 2, count.saturating_sub(1)] {
                let bad = stations.get(place).map_or(Vec::new(), |s| unsound(*s));
                for one in bad {
                    let mut stations = stations.clone();
                    stations[place] = one;
                    refusals(trial, &stations, true);
                }
            }
        }
    }
}

/// Every call on a row, at places inside and outside, with good and bad values.
fn refusals(trial: &mut Trial, stations: &[Station], unsound: bool) {
    let count = stations.len();
    let size = (REFUSED_ROW_SIZE, count == 0 || count > 32);
    let sound = (REFUSED_ROW_UNSOUND, unsound);
    for place in [0, count.wrapping_sub(1), count, count + 1, usize::MAX] {
        let none = (REFUSED_PLACE, place >= count);
        let held = stations.get(place).map_or(false, |s| s.length > 0);
        for length in [0, 1, 11, 12, 300] {
            let value = (REFUSED_MESSAGE, length == 0 || length > 11);
            let wanted = first_of(
                trial,
                "load",
                &[size, sound, none, value, (REFUSED_HOLDS, held)],
            );
            let message = trial.random.bytes(length);
            let mut row = Row::new(&mut trial.random, stations);
            expect("load", trial.load(&mut row, place, &message), wanted);
        }
        let nothing = (REFUSED_NOTHING, place < count && !held);
        let wanted = first_of(trial, "withdraw", &[size, sound, none, nothing]);
        let mut row = Row::new(&mut trial.random, stations);
        expect("withdraw", trial.withdraw(&mut row, place), wanted);
        let short_of_80 = Clock {
            short: 80,
            ..NOMINAL
        };
        for (clock, bad) in [(QUICK, false), (SLOW, false), (short_of_80, true)] {
            let wanted = first_of(
                trial,
                "set clock",
                &[size, sound, none, (REFUSED_CLOCK, bad)],
            );
            let mut row = Row::new(&mut trial.random, stations);
            expect("set clock", trial.set_clock(&mut row, place, clock), wanted);
        }
    }
    let nobody = (REFUSED_NOTHING, stations.iter().all(|s| s.length == 0));
    for lent in [0, 1, 100, WORDS, 102, 140] {
        let few = (REFUSED_LENT, lent < WORDS);
        let wanted = first_of(trial, "round", &[size, sound, few, nobody]);
        let mut row = Row::new(&mut trial.random, stations);
        expect("round", trial.round(&mut row, lent).0.number, wanted);
    }
}

/// Rounds until nobody waits, each held to what document 01 says of rounds and of waiting.
pub fn until_empty(trial: &mut Trial, row: &mut Row) {
    let mut watch = Watch::over(row.stations());
    loop {
        let (answer, words) = trial.round(row, WORDS);
        if answer.number != DONE {
            return expect("the end of a row", answer.number, REFUSED_NOTHING);
        }
        watch.played(&mut trial.tally, &answer, &words);
    }
}

/// Messages that begin with another, with its check byte or without, that differ in their last bit, and others.
fn messages(trial: &mut Trial) -> Vec<Vec<u8>> {
    let long = trial.random.bytes(11);
    let mut other = long.clone();
    other[10] ^= 1;
    let mut found: Vec<Vec<u8>> = [0x00, 0xFF, 0xAA, 0x55, 0x80, 0x01]
        .iter()
        .flat_map(|byte| [vec![*byte], with_check(&[*byte]), vec![*byte; 11]])
        .collect();
    found.extend([vec![0xFF, 0x01], with_check(&[0xFF, 0x01])]);
    found.extend([long[..10].to_vec(), with_check(&long[..10]), long, other]);
    found
}

/// Each two of these messages, with clocks that differ as much as they can.
fn pairs(trial: &mut Trial) {
    let all = messages(trial);
    for first in &all {
        for second in &all {
            for clocks in [[QUICK, SLOW], [SLOW, QUICK]] {
                let mut row = row_of(trial, &[(clocks[0], first), (clocks[1], second)]);
                until_empty(trial, &mut row);
            }
        }
    }
}

/// Stations that hold nothing, at every corner of the sending windows, beside one and two that do.
fn idle_clocks(trial: &mut Trial) {
    for idle in corner_clocks() {
        let holders: [(Clock, &[u8]); 2] = [(NOMINAL, &[0x12, 0x34]), (QUICK, &[0x12])];
        for held in 1..=2 {
            let mut row = row_of(
                trial,
                &[&[(idle, &[] as &[u8])], &holders[..held], &[(idle, &[])]].concat(),
            );
            until_empty(trial, &mut row);
        }
    }
}

/// Rows of several sizes: equal messages, messages that differ in their last byte, and each the beginning of the next.
fn many(trial: &mut Trial) {
    let clocks = corner_clocks();
    for count in [3, 31, 32] {
        let long = trial.random.bytes(11);
        for kind in 0..3 {
            let one = |i: usize| {
                let mut message = long.clone();
                match kind {
                    1 => message[10] = i as u8,
                    2 => message.truncate(1 + i % 11),
                    _ => {}
                }
                station(trial, clocks[i % clocks.len()], &message)
            };
            let stations: Vec<Station> = (0..count).map(one).collect();
            let mut row = Row::new(&mut trial.random, &stations);
            until_empty(trial, &mut row);
        }
    }
}
