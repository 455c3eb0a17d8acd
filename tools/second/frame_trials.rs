//! Trials of reading and writing.

use crate::check::register;
use crate::reading::{read, Answer, Frame, Kind};
use crate::self_test::{Chance, Tally, Trial};
use crate::symbol::{Clock, NOMINAL};
use crate::writing::{write, Message};

/// The eight clocks whose widths are each first or last in their sending window.
pub fn corners() -> Vec<Clock> {
    let pick = |n: usize| Clock {
        short: [49, 79][n & 1],
        long: [112, 145][n >> 1 & 1],
        sof: [182, 218][n >> 2 & 1],
    };
    (0..8).map(pick).collect()
}

const ZERO: [u32; 8] = [64, 128, 64, 128, 64, 128, 64, 128];
const ONES: [u32; 8] = [128, 64, 128, 64, 128, 64, 128, 64];
const THREE_B: [u32; 8] = [64, 128, 128, 64, 128, 128, 128, 64];

/// Opening, SOF, FF FF, then whatever follows; the first of it stands at place 18.
fn ff(after: &[u32]) -> Vec<u32> {
    [&[300, 200], &ONES[..], &ONES, after].concat()
}

/// Opening, SOF, twelve bytes whose last is a right check, then whatever follows at place 98.
fn twelve(after: &[u32]) -> Vec<u32> {
    let mut lent = [0; 101];
    let message = Message {
        main: &[0x5A; 11],
        kind: Kind::None,
        response: &[],
    };
    let count = write(NOMINAL, message, &mut lent).unwrap_or(1);
    [&lent[..count - 1], after].concat()
}

/// Recordings that begin with a frame's opening at 0: the number and the next position.
pub fn fault_cases() -> Vec<(Vec<u32>, u32, usize)> {
    let plain = [200, 64];
    let checked = [200, 128];
    let wrong = [128, 64, 128, 64, 128, 64, 128, 128];
    vec![
        (vec![300, 0], 11, 1),
        (vec![300, 34], 11, 1),
        (vec![300, 35], 12, 1),
        (vec![300, 163], 12, 1),
        (vec![300, 164], 2, 0),
        (vec![240, 239], 2, 0),
        (vec![300, 240], 13, 1),
        (vec![300, 999_999], 13, 1),
        (vec![300, 1_000_000], 14, 1),
        (vec![300, 200, 34], 11, 2),
        (vec![300, 200, 0, 300], 11, 2),
        (vec![300, 200, 64, 164], 15, 3),
        (vec![300, 200, 64, 240], 13, 3),
        (vec![300, 200, 64, 1_000_000], 14, 3),
        (vec![300, 200, 128, 64, 164], 16, 4),
        (vec![300, 200, 128, 64, 300], 16, 4),
        (vec![300, 200, 164], 17, 2),
        (vec![300, 200, 240], 17, 2),
        ([&[300, 200], &ONES[..], &[300]].concat(), 17, 10),
        ([&[300, 200], &ONES[..], &[200]].concat(), 17, 10),
        ([&[300, 200], &ONES[..], &wrong, &[240]].concat(), 18, 18),
        ([&[300, 200], &ONES[..], &wrong, &[239]].concat(), 18, 18),
        (
            [&[300, 200], &wrong[..], &ONES, &[40, 40, 240]].concat(),
            16,
            20,
        ),
        (ff(&[]), 2, 0),
        (ff(&[200]), 2, 0),
        (ff(&[200, 34]), 11, 19),
        (ff(&[200, 200]), 15, 19),
        (ff(&[200, 240]), 13, 19),
        (ff(&[200, 1_000_000]), 14, 19),
        (ff(&plain), 2, 0),
        (ff(&checked), 2, 0),
        (ff(&[200, 96, 240]), 17, 20),
        (ff(&[200, 97, 164]), 17, 20),
        (ff(&[200, 64, 64, 128, 240]), 16, 22),
        (ff(&[200, 64, 64, 200]), 15, 21),
        (ff(&[&plain, &ZERO[..]].concat()), 2, 0),
        (ff(&[&plain, &ZERO[..], &[200]].concat()), 19, 28),
        (ff(&[&checked, &ZERO[..], &[200]].concat()), 17, 28),
        (ff(&[&checked, &ZERO[..], &ZERO, &[200]].concat()), 18, 36),
        (ff(&[&checked, &ZERO[..], &ZERO, &[300]].concat()), 18, 36),
        (
            ff(&[&checked, &ZERO[..], &THREE_B, &[200]].concat()),
            19,
            36,
        ),
        (twelve(&[]), 2, 0),
        (twelve(&[64]), 20, 98),
        (twelve(&[34]), 11, 98),
        (twelve(&[200]), 2, 0),
        (twelve(&[200, 64]), 2, 0),
        (twelve(&[200, 64, 128]), 20, 100),
        (twelve(&[200, 128, 64]), 20, 100),
        (twelve(&[200, 64, 200]), 17, 100),
        (twelve(&[200, 128, 300]), 17, 100),
        (ff(&[&plain, &ZERO.repeat(10)[..], &[64]].concat()), 20, 100),
        (ff(&[&plain, &ZERO.repeat(10)[..], &[240]].concat()), 0, 100),
        (
            ff(&[&checked, &ZERO.repeat(10)[..], &[64]].concat()),
            20,
            100,
        ),
    ]
}

fn faults(tally: &mut Tally) -> Trial {
    for (recording, number, next) in fault_cases() {
        let mut lent = [0xEE; 13];
        let answer = read(&recording, 0, &mut lent);
        let got = answer.map(|answer| (answer.number, answer.next));
        let name = format!("reading {recording:?}");
        tally.same(&name, got, Ok((number, next)))?;
        tally.same(&name, lent == [0xEE; 13], number != 0)?;
    }
    Ok(())
}

fn quiet(tally: &mut Tally) -> Trial {
    let two = [&ff(&[])[..], &ff(&[300])].concat();
    let cases: [(&str, &[u32], usize, usize, Result<(u32, usize), u32>); 13] = [
        ("nothing", &[], 0, 12, Ok((1, 0))),
        ("past nothing", &[], 1, 12, Err(31)),
        ("31 before 32", &[], 1, 11, Err(31)),
        ("32", &[], 0, 11, Err(32)),
        ("a lone end", &[300], 0, 12, Ok((1, 0))),
        ("at the length", &[300, 200], 2, 12, Ok((1, 2))),
        ("past the length", &[300, 200], 3, 12, Err(31)),
        ("an odd position", &[300, 200], 1, 12, Ok((1, 1))),
        ("no opening by a break", &[0, 300, 64], 0, 12, Ok((1, 0))),
        ("an opening last", &[0, 300, 300], 0, 12, Ok((1, 0))),
        ("an opening of 239", &[239, 200], 0, 12, Ok((1, 0))),
        ("a later opening", &[0, 1, 240, 200], 1, 12, Ok((2, 2))),
        ("a frame after a frame", &two, 0, 12, Ok((0, 18))),
    ];
    for (name, recording, p, bytes, want) in cases {
        let got = read(recording, p, &mut vec![0; bytes]);
        tally.same(name, got.map(|a| (a.number, a.next)), want)?;
    }
    let second = read(&two, 18, &mut [0; 12]);
    tally.same(
        "its follower",
        second.map(|a| (a.number, a.next)),
        Ok((0, 36)),
    )
}

fn written_words(tally: &mut Tally) -> Trial {
    let cases: [(Kind, &[u8], Vec<u32>); 3] = [
        (Kind::None, &[0xAB; 40], ff(&[300])),
        (
            Kind::Plain,
            &[0x00],
            ff(&[&[200, 64], &ZERO[..], &[300]].concat()),
        ),
        (
            Kind::Checked,
            &[0x00],
            ff(&[&[200, 128], &ZERO[..], &THREE_B, &[300]].concat()),
        ),
    ];
    for (kind, response, want) in cases {
        let mut lent = vec![5; 101];
        let main = &[0xFF];
        let message = Message {
            main,
            kind,
            response,
        };
        let count = write(NOMINAL, message, &mut lent).unwrap_or(0);
        let name = format!("FF written with {kind:?}");
        tally.same(&name, &lent[..count], &want)?;
        tally.same(&name, lent[count..].iter().all(|w| *w == 5), true)?;
    }
    Ok(())
}

/// Whether a frame of these lengths without checks fits, and its words where it does.
fn words_due(main: usize, kind: Kind, response: usize) -> Option<usize> {
    let (extra, bytes) = match kind {
        Kind::None => (0, main + 1),
        Kind::Plain => (2, main + 1 + response),
        Kind::Checked => (2, main + 1 + response + 1),
    };
    let missing = main == 0 || (kind != Kind::None && response == 0);
    (!missing && bytes <= 12).then_some(3 + extra + 8 * bytes)
}

fn read_back(tally: &mut Tally, name: &str, message: Message, words: &[u32]) -> Trial {
    let mut bytes = [0xEE; 14];
    let answer = read(words, 0, &mut bytes);
    let (response, plain_from) = match message.kind {
        Kind::None => (0, 0),
        Kind::Plain => (message.response.len(), message.response.len()),
        Kind::Checked => (message.response.len() + 1, message.response.len()),
    };
    let main = message.main.len() + 1;
    let frame = Frame {
        opening: 0,
        main,
        response,
        kind: message.kind,
    };
    let want = Answer {
        number: 0,
        next: words.len() - 1,
        frame: Some(frame),
    };
    tally.same(name, answer, Ok(want))?;
    tally.same(name, &bytes[..main - 1], message.main)?;
    tally.same(name, register(&bytes[..main]), 0xC4)?;
    let sent_back = &bytes[main..main + plain_from];
    tally.same(name, sent_back, &message.response[..plain_from])?;
    if message.kind == Kind::Checked {
        tally.same(name, register(&bytes[main..main + response]), 0xC4)?;
    }
    let rest = bytes[main + response..].iter().all(|byte| *byte == 0xEE);
    tally.same(name, rest, true)
}

fn round_trips(tally: &mut Tally, clock: Clock, chance: &mut Chance) -> Trial {
    let lengths = (0..=13).flat_map(|main| (0..=13).map(move |response| (main, response)));
    for (main, response) in lengths {
        let (main, response) = (&chance.bytes(main)[..], &chance.bytes(response)[..]);
        for kind in [Kind::None, Kind::Plain, Kind::Checked] {
            let message = Message {
                main,
                kind,
                response,
            };
            let name = format!("{message:02X?} by {clock:?}");
            let due = words_due(main.len(), kind, response.len());
            let mut lent = [7; 101];
            let count = write(clock, message, &mut lent);
            tally.same(&name, count, due.ok_or(37))?;
            let short = write(clock, message, &mut [7; 100]);
            tally.same(&name, short, due.map_or(Err(37), |_| Err(32)))?;
            match count {
                Ok(count) => read_back(tally, &name, message, &lent[..count])?,
                Err(_) => tally.same(&name, lent, [7; 101])?,
            }
        }
    }
    Ok(())
}

fn refused_clocks(tally: &mut Tally) -> Trial {
    let nominal = NOMINAL;
    let shorts = [48, 80].map(|short| Clock { short, ..nominal });
    let longs = [111, 146].map(|long| Clock { long, ..nominal });
    let sofs = [181, 219].map(|sof| Clock { sof, ..nominal });
    let empty = Message {
        main: &[],
        kind: Kind::None,
        response: &[],
    };
    for clock in [shorts, longs, sofs].concat() {
        let answer = write(clock, empty, &mut []);
        tally.same(&format!("36 first for {clock:?}"), answer, Err(36))?;
    }
    tally.same("37 before 32", write(NOMINAL, empty, &mut []), Err(37))
}

/// All trials of reading and writing.
pub fn trials(tally: &mut Tally) -> Trial {
    faults(tally)?;
    quiet(tally)?;
    written_words(tally)?;
    refused_clocks(tally)?;
    let mut chance = Chance::new(2);
    for clock in corners() {
        round_trips(tally, clock, &mut chance)?;
    }
    round_trips(tally, NOMINAL, &mut chance)
}
